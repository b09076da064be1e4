"""tests/run packages BUILT: installs the program into a folder, tries it there, and uninstalls it;
makes the packages, and tries their contents; builds the program again in another folder, and makes
the same packages of that build, byte for byte. BUILT is crates/sokoaudit/out. Ends in 'N passed, M
failed'."""
import glob
import os
from typing import List, Sequence

from tests.runner import TOP, Cases, arguments, enter_folder, run

# commands of bash that have to succeed, by their names
SOURCES = {
    "the version of CHANGELOG.md":
        "grep -E \"^## $version(, 20..-..-..)?$\" \"$top/CHANGELOG.md\"",
    "installation": "\"$top/packaging/install\" $built/sokoaudit root/usr",
}
# at a prefix
PREFIX = {
    "the program": "bin/sokoaudit audit $first.xsb $first.answers | cmp - $first.report",
    "sokotool": "bin/sokotool named $first.xsb $first.report",
}
INSTALLED = {
    **PREFIX,
    "a page by sokotool": "bin/sokotool page $first.{xsb,answers,report}",
    "the version in the man pages": "test $(grep -l $version share/man/man[15]/* | wc -l) = 3",
    "the documents": "test -s share/doc/sokoaudit/formats.md",
    "the files that they link to": """cd share/doc/sokoaudit &&
        grep -ohP '\\]\\(\\K[^)#:]+(?=[)#])' *.md | sort -u | xargs -d '\\n' ls""",
    "the notices": "grep '^==== clap: LICENSE-MIT' share/doc/sokoaudit/NOTICES",
    "no file of the tests": "! find share/sokoaudit -name 'test*' -o -name '*.pyc' | grep .",
    "the commands of make":
        "make -s -C \"$top\" -n install dist deb uninstall DESTDIR=$PWD/.. PREFIX=/usr",
    "uninstall": "make -s -C \"$top\" uninstall DESTDIR=$PWD/.. PREFIX=/usr",
    "no file is left": "! find . -type f | grep .",
}
UNTAR = "mkdir archive && tar -C archive --strip-components=1 -xf dist/*"
UNPACK = "for it in deb/*; do dpkg-deb -x $it unpacked || exit; done"
# each kind of package: how it is unpacked, the prefix, the folders of the library for C and of its
# Python module there, and the commands that have to succeed at the prefix
PACKAGES = {
    "dist": (UNTAR, "archive", ("lib", "lib"), {
        **PREFIX,
        "the static program":
            "bin/sokoaudit-static audit $first.xsb $first.answers | cmp - $first.report",
        "the conformance set": "share/sokoaudit/conformance/run --kinds text,zones bin/sokoaudit",
        "the sums": "sha256sum --quiet -c SHA256SUMS",
    }),
    "deb": (UNPACK, "unpacked/usr", ("lib/x86_64-linux-gnu", "lib/python3/dist-packages"), {
        **PREFIX,
        "the program that was built": "cmp bin/sokoaudit $built/sokoaudit",
        "the dependencies": """dpkg-deb -f $room/deb/sokoaudit_*_amd64.deb Depends |
            cmp - <(echo 'libc6 (>= 2.34), python3 (>= 3.8)')""",
        # in KiB, with its folders
        "the size that it says": """dpkg-deb -x $room/deb/sokoaudit_*_amd64.deb $room/alone &&
            files=$(find $room/alone -type f -printf '%s\\n' | awk '{ n += $1 } END { print n }') &&
            said=$(dpkg-deb -f $room/deb/sokoaudit_*_amd64.deb Installed-Size) &&
            [ $((files / 1024)) -le $said ] && [ $said -le $((files / 1000 + 400)) ]""",
        "a version that a release follows": """test ${version%-dev} = $version ||
            dpkg --compare-versions $(dpkg-deb -f $room/deb/sokoaudit_*_amd64.deb Version) lt \\
                ${version%-dev}""",
    }),
}
LIBRARY = """export PKG_CONFIG_PATH=$PWD/{0}/pkgconfig PKG_CONFIG_ALLOW_SYSTEM_CFLAGS=1
export LD_LIBRARY_PATH=$PWD/{0}
${{CC:-cc}} share/doc/sokoaudit/examples/check.c $(pkg-config --cflags --libs sokoaudit) -o check &&
    {{ ./check && PYTHONPATH=$PWD/{1} python3 share/doc/sokoaudit/examples/check.py |
        head -n 1; }} | cmp - <(yes level 1 unsolvable patterns 3 | head -n 2)"""
# The second build uses what the toolchain kept of the first one, so little is proved again.
SECOND = {
    "a copy of the repository": """mkdir -p $second && cd "$top" &&
        tar --exclude=./{.git,out} --exclude="./crates/sokoaudit/out/sokoaudit*" \\
            --exclude='./crates/[!s]*/out/incremental' -cf - . | tar -C $second -xf -""",
    "the second build": "cd $second/crates/sokoaudit && rt run -- --help",
    "the same program": "cmp $built/sokoaudit $second/crates/sokoaudit/out/sokoaudit",
}
AGAIN = """export TZ=Asia/Tokyo LC_ALL=C && umask 077
    $second/packaging/{0} $second/crates/sokoaudit/out {0}/again $library &&
    cmp {0}/{1} {0}/again/{1}"""


def make(cases: Cases, kind: str, built: str, library: Sequence[str]) -> List[str]:
    """Makes packages of this kind in the folder of its name, and returns the files. Skips that if
    this machine lacks something."""
    said = run([f"{TOP}/packaging/{kind}", built, kind, *library])
    if said.endswith("status 3\n"):
        cases.skip(f"packaging/{kind}", said.splitlines()[0])
    else:
        cases.holds(f"packaging/{kind}", said.endswith("status 0\n"), said)
    return sorted(glob.glob(f"{kind}/*"))


(built,) = arguments("packages BUILT")
cases, folder = Cases("packages"), enter_folder()
cases.demands("make")
version, room = run([f"{built}/sokoaudit", "--version"]).split()[1], folder.name
library = [f"{room}/lib"] if cases.builds_soon("the library for C", "lib", 3) else []
os.environ.update(top=TOP, built=built, version=version, room=room, library="".join(library))
os.environ.update(first="share/sokoaudit/samples/first", second=f"{room}/a/second/folder")
cases.each("the sources", SOURCES)
pages = {"man finds the pages": "man -M share/man -w sokoaudit sokoaudit-answers"}
cases.each("installed", pages, "root/usr", needs="man")
cases.each("installed", INSTALLED, "root/usr")
if library:
    cases.succeeds("packaging/library", f"{TOP}/packaging/library", *library)
again = {}
for kind, (unpack, prefix, places, commands) in PACKAGES.items():
    files = make(cases, kind, built, library)
    if files:
        cases.each(kind, {"it is unpacked": unpack})
        cases.each(kind, commands, prefix)
    if files and library:
        cases.each(kind, {"the library": LIBRARY.format(*places)}, prefix, needs="pkg-config")
    again.update({f"the same {it}": AGAIN.format(*it.split("/")) for it in files})
if os.path.exists("deb"):
    lintian = "lintian --allow-root deb/*.deb 2>/dev/null | diff - /dev/null"
    cases.each("deb", {"lintian says nothing": lintian}, needs="lintian")
if cases.builds_soon("a second build", "dist deb", len(SECOND) + len(again)):
    cases.each("a second build", {**SECOND, **again})
cases.finish()
