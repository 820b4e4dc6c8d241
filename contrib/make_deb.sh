#!/usr/bin/env bash
# Makes a Debian package of crates/sipd/out/sipd: contrib/make_deb.sh --proof FILE [--maintainer 'NAME <ADDRESS>'] [--to FOLDER]
#
# FILE is what .ci/run printed when it built that program. The package is refused (1) where FILE isn't of a gate that passed, where it
# lacks the verdict of a crate, where it is of another program, of a tree with another crates/, crates.txt or HANDLES than this one's,
# or where this tree has changes that aren't committed. FOLDER, deb/ if it isn't named, gets the package, PROOF and SHA256SUMS.
# The same commit, program, FILE and maintainer give the same bytes. docs/OPERATING.md, "As a package".
set -euo pipefail
cd "$(dirname "$0")/.."
export LC_ALL=C TZ=UTC
umask 022
PROGRAM=crates/sipd/out/sipd
PROVED=(crates crates.txt HANDLES)
PACKED=(contrib docs examples CHANGELOG.md)
proof='' to=deb maintainer='Who runs sipd <root@localhost>'

refuse() {
    echo "make_deb: $1" >&2
    exit 1
}

while [ $# -gt 0 ]; do
    [ $# -gt 1 ] || refuse "$1 needs a value, or isn't known: --proof FILE, --maintainer 'NAME <ADDRESS>', --to FOLDER"
    case $1 in
        --proof) proof=$2 ;;
        --maintainer) maintainer=$2 ;;
        --to) to=$2 ;;
        *) refuse "$1 isn't known: --proof FILE, --maintainer 'NAME <ADDRESS>', --to FOLDER" ;;
    esac
    shift 2
done

# What the gate says behind all that passed: `gate: KEY VALUE`.
gate() {
    sed -n "s/^gate: $1 //p" "$proof" | tail -n 1
}

# The verdict of each crate, sorted: that of its proof, or that an earlier run proved the same files.
verdicts() {
    awk '/^== / { name = $2 }
        /^logic=proved / { verdict[name] = $0 }
        /^rt: [a-z0-9_]+ proved$/ && verdict[$2] != "" { print $2 ": " verdict[$2] }
        /^rt: [a-z0-9_]+ is kept: / { print $2 ": " substr($0, index($0, "kept: ")) }' "$proof" | sort -u
}

# Whether FILE proves this program of this tree.
judge() {
    local lacking
    [ -n "$proof" ] || refuse "what proves the program? --proof FILE, with what .ci/run printed"
    [ -r "$proof" ] || refuse "$proof can't be read"
    [ -x $PROGRAM ] || refuse "$PROGRAM isn't there: .ci/run makes it"
    tail -n 1 "$proof" | grep -Eqx '[0-9]+ passed, 0 failed' || refuse "$proof isn't of a gate that passed: its last line isn't 'N passed, 0 failed'"
    grep -q '^rt: ok; ' "$proof" || refuse "$proof isn't of the whole gate: no line of it begins with 'rt: ok;'"
    lacking=$(comm -13 <(verdicts | cut -d: -f1 | sort -u) <(sed 's/#.*//' crates.txt | grep -o '^[a-z0-9_]*' | sort -u) | tr '\n' ' ')
    [ -z "$lacking" ] || refuse "$proof has no verdict of $lacking"
    [ "$(gate program)" = "$(sha256sum < $PROGRAM | cut -d' ' -f1)" ] || refuse "$PROGRAM isn't the program that $proof proves, $(gate program)"
    [ -z "$(git status --porcelain -- "${PROVED[@]}" "${PACKED[@]}")" ] || refuse "this tree has changes that aren't committed"
    git cat-file -e "$(gate commit)^{commit}" 2> /dev/null || refuse "the commit of $proof, '$(gate commit)', isn't in this clone"
    git diff --quiet "$(gate commit)" HEAD -- "${PROVED[@]}" || refuse "${PROVED[*]} are others than at the commit of $proof, $(gate commit)"
}

say_proof() {
    echo "sipd $version"
    echo "commit $commit"
    echo "proved at commit $(gate commit), whose ${PROVED[*]} are the same"
    echo "kit $(gate kit)"
    echo "program $(gate program)"
    grep '^rt: ok; ' "$proof" | tail -n 1
    tail -n 1 "$proof"
    printf '\nTo prove the same again, with that kit in a clone at the first commit: .ci/run > FILE, and contrib/make_deb.sh --proof FILE.\n'
    printf 'The verdict of each crate:\n\n'
    verdicts
}

# Writes a text into the package, packed where its name says so.
put() {
    mkdir -p "$(dirname "$room/deb/$1")"
    case $1 in
        *.gz) gzip -9n > "$room/deb/$1" ;;
        *) cat > "$room/deb/$1" ;;
    esac
}

put_texts() {
    local doc=usr/share/doc/sipd page
    sed -e 's|/usr/local/bin/sipd|/usr/bin/sipd|' -e '/^After=/a ConditionPathExists=/etc/sipd.toml' -e '/^Description=/a Documentation=man:sipd(1)' \
        -e '1d' contrib/sipd.service | put usr/lib/systemd/system/sipd.service
    put usr/share/man/man1/sipd.1.gz < contrib/man/sipd.1
    put usr/share/man/man5/sipd.toml.5.gz < contrib/man/sipd.toml.5
    put usr/share/bash-completion/completions/sipd < contrib/sipd.bash-completion
    put usr/share/lintian/overrides/sipd < contrib/deb/overrides
    put $doc/examples/office.toml < examples/office.toml
    put $doc/README.Debian < contrib/deb/README.Debian
    put $doc/copyright < contrib/deb/copyright
    put $doc/changelog.gz < CHANGELOG.md
    for page in OPERATING CONFIGURATION PROMISES SCRIPTS; do put $doc/$page.md < docs/$page.md; done
    printf 'sipd (%s) unstable; urgency=medium\n\n  * Commit %s.\n\n -- %s  %s\n' "$version" "$commit" "$maintainer" "$(date -R -d "@$SOURCE_DATE_EPOCH")" |
        put $doc/changelog.Debian.gz
    say_proof | put $doc/PROOF
}

# The libraries that the program needs, by what it calls.
needed() {
    mkdir -p "$room/needs/debian"
    printf 'Source: sipd\n\nPackage: sipd\nArchitecture: amd64\n' > "$room/needs/debian/control"
    (cd "$room/needs" && dpkg-shlibdeps -O "$room/deb/usr/bin/sipd" 2> /dev/null) | sed -n 's/^shlibs:Depends=//p'
}

put_control() {
    local name needs
    needs=$(needed)
    [ -n "$needs" ] || refuse "dpkg-shlibdeps doesn't say which libraries the program needs"
    put DEBIAN/control << END
Package: sipd
Version: $version
Architecture: amd64
Maintainer: $maintainer
Installed-Size: $(find "$room/deb/usr" -type f -printf '%s\n' | awk '{ k += int(($1 + 1023) / 1024) } END { print k }')
Depends: $needs, adduser
Section: comm
Priority: optional
Description: SIP registrar and proxy of one company
 Phones register with it over UDP and call each other and a gateway through
 it, as a policy says, with a line in the log for each decision. Each of its
 functions is proved to meet its contract.
 .
 No licence was chosen: this package is for the company's own machines.
END
    for name in postinst prerm postrm; do put DEBIAN/$name < contrib/deb/$name; done
    (cd "$room/deb" && find usr -type f | sort | xargs md5sum) | put DEBIAN/md5sums
    chmod 755 "$room"/deb/DEBIAN/{postinst,prerm,postrm}
}

command -v dpkg-shlibdeps > /dev/null || refuse "dpkg-shlibdeps isn't here: apt install dpkg-dev"
judge
commit=$(git rev-parse HEAD)
SOURCE_DATE_EPOCH=$(git log -1 --format=%ct)
export SOURCE_DATE_EPOCH
# The date of the last change that whoever runs it is told of, and the commit's moment.
version=$(sed -n 's/^## \([0-9]*\)-\([0-9]*\)-\([0-9]*\).*/\1.\2.\3/p' CHANGELOG.md | head -n 1)+$(date -d "@$SOURCE_DATE_EPOCH" +%Y%m%d.%H%M%S)-1
room=$(mktemp -d)
trap 'rm -rf "$room"' EXIT
put usr/bin/sipd < $PROGRAM
chmod 755 "$room/deb/usr/bin/sipd"
put_texts
put_control
find "$room/deb" -exec touch -h -d "@$SOURCE_DATE_EPOCH" {} +
mkdir -p "$to"
file=sipd_${version}_amd64.deb
dpkg-deb --root-owner-group -Zxz --threads-max=1 --build "$room/deb" "$to/$file" > /dev/null
cp "$room/deb/usr/share/doc/sipd/PROOF" "$to/PROOF"
(cd "$to" && sha256sum "$file" PROOF > SHA256SUMS)
echo "$to/$file"
