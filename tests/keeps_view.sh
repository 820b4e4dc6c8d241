#!/bin/sh
# Whether a body that keeps a view past its datagram is refused by the borrow checker. The gate takes an edit that
# isn't refused by the prover for a bad one, so this stands beside it. Works on a copy of the crates that it needs
# (with what is proved of them in `out`, so that it takes a minute where they are); changes nothing here.
cd "$(dirname "$0")/.." || exit 2
copy=$(mktemp -d) || exit 2
trap 'rm -rf "$copy"' EXIT
mkdir "$copy/crates"
cp HANDLES "$copy/"
for crate in sip_text sip_text_runs sip_message_fields sip_message_form sip_message; do
    cp -a "crates/$crate" "$copy/crates/" || exit 2
    rm -rf "$copy/crates/$crate/must-fail"
    grep "^$crate:" crates.txt >> "$copy/crates.txt"
done
cat >> "$copy/crates/sip_message/src/viewing.rt" <<'BODY'

/// A view of bytes that are gone.
pub fn keeps_view<'a>(alloc: Global) -> Result<View<'a>, ViewError<'a>> {
    let datagram = [13u8, 10u8];
    view(alloc, &datagram)
}
BODY
answer=$(cd "$copy/crates/sip_message" && rt check --only=keeps_view 2>&1)
case "$answer" in
    *"[borrow-e0515]"*) echo "ok: a view isn't kept past its datagram (borrow-e0515)" ;;
    *) printf '%s\n' "$answer"; echo "fails: a view is kept past its datagram"; exit 1 ;;
esac
