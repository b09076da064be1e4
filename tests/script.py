"""tests/run script: tests the script 'sokoaudit' at the top, and the scripts that build, with a
toolchain that proves nothing and takes no time. Ends in 'N passed, M failed'."""
import os
import shutil
import signal
import subprocess
import sys
import time

from tests.runner import TOP, Cases, arguments, call, decode, enter_folder, read, run, shell

# A repository of three crates with the scripts of this one. Its toolchain writes a line into
# 'builds' for each build, and into 'lanes' when a library begins, with its words, and when it ends.
# It fails if the sources have the word 'wrong'. Its program prints its sources, its folder and its
# words, and ends with status 1 on the word 'refused'. A library takes LIBRARY seconds, and the
# program PROGRAM seconds, where these are set. Where BESIDE is set, a library waits as many tenths
# of a second for another one to begin.
TREE = r"""
mkdir -p tree/samples bin plain bare 'else where' tree/crates/{low,arguments,sokoaudit}/src
mkdir tree/crates/low/{specs,proofs} && touch tree/crates/low/{specs,proofs}/Low.antt
chmod 755 .
ln -sf /usr/bin/* /bin/* plain && rm -f plain/rt
ln -s /bin/{cat,dirname,readlink} bare
cp -r "$top"/{sokoaudit,Makefile,packaging,reference} tree
cp "$top/samples/help" tree/samples
printf '#####\n#@$.#\n#####\n' >'else where/levels'
printf 'sokoban-answers 1\nlevel 1\nsolution\nR\nend\n' >'else where/answers'
printf 'low:\narguments: clap\nsokoaudit: low arguments clap\n' >tree/crates.txt
for crate in low arguments sokoaudit; do echo one >tree/crates/$crate/src/main.rt; done
printf 'out/\nbuilds\nlanes\n' >tree/.gitignore
git -C tree init -q 2>/dev/null && git -C tree add -A
install -m 755 /dev/stdin bin/rt <<'END'
#!/usr/bin/env bash
say() { echo "$*" >>../../lanes; }
[ "$1" = run ] || {
    say begin "$@"
    sleep ${LIBRARY-0}
    for it in $(seq ${BESIDE-0}); do [ $(grep -c begin ../../lanes) = 1 ] || break; sleep 0.1; done
    say end
    exit
}
! grep -q wrong ../*/src/main.rt || { echo "fn main: not proved"; exit 1; }
echo "so far: 2 of 3 functions checked; the verdict comes last"
sleep ${PROGRAM-0}
echo built >>../../builds
printf '#!/bin/sh\necho "%s|$PWD|$*"\ntest "$1" != refused\n' \
    "$(echo $(cat ../{low,arguments,sokoaudit}/src/main.rt))" |
    install -m 755 /dev/stdin out/sokoaudit
echo logic=proved functions=3 axioms=0
END
"""
# Words are cut at ends of lines alone, since the folder may have blanks in its name.
# edit: a new source of the lowest crate; fakes: a command that prints a line; builds: the number of
# builds; python: a Python that runs these words, or the real one
BEFORE = r"""
IFS=$'\n'
edit() { echo "$1" >$tree/crates/low/src/main.rt; }
fakes() { printf '#!/bin/sh\necho %s\n' "$2" >$tree/../bin/$1 && chmod +x $tree/../bin/$1; }
builds() { cat $tree/builds 2>/dev/null | wc -l; }
python() {
    rm -f $tree/../bin/python3
    [ $# = 0 ] || printf '#!/bin/sh\n%s\n' "$1" | install -m 755 /dev/stdin $tree/../bin/python3
}
"""
arguments("script")
cases, folder = Cases("script"), enter_folder()
cases.demands("make", "git")
room, help = os.path.realpath(folder.name), read(f"{TOP}/samples/help").partition("\n")[0]
version = run([f"{TOP}/reference/sokoaudit", "--version"]).partition("\n")[0]
tree, here = f"{room}/tree", f"{room}/else where"
nobody = "" if os.getuid() else "setpriv\n--reuid=65534\n--regid=65534\n--clear-groups"
os.environ.update(top=TOP, tree=tree, run=f"{tree}/sokoaudit", nobody=nobody)
os.environ["PATH"] = f"{room}/bin:{os.environ['PATH']}"
# the machine that a build needs, with two processors
MACHINE = "fakes uname 'Linux x86_64'; fakes getconf 'glibc 2.34'; fakes nproc 2"
shell(TREE + BEFORE + MACHINE)


def case(name: str, status: int, line: str, says: str, command: str) -> None:
    """A case: the command, in another folder, ends with this status and has this first line, and
    standard error has this text, or is empty."""
    ran = call(["bash", "-c", BEFORE + command], cwd=here)
    output, errors = decode(ran.output), decode(ran.errors)
    came, wanted = (ran.status, output.partition("\n")[0]), (status, line.replace("HERE", here))
    is_so = came == wanted and (says in errors if says else not errors)
    cases.holds(name, is_so, f"status {ran.status}", *(output + errors).splitlines())


case("help needs no build", 0, help, "", "$run -h && exit $(builds)")
case("nor does it as a command", 0, help, "", "$run help && exit $(builds)")
case("nor does the version", 0, version, "", "$run -V && exit $(builds)")
# without the toolchain the reference runs
LACKS = "PATH=$tree/../plain"
NOTE = "sokoaudit: this is the reference in Python, not the proved program"
case("without the toolchain the reference runs", 0, "level 1 solved moves 1 pushes 1 changes 1",
     NOTE, f"{LACKS} $run audit levels answers")
case("it says so in one line", 0, "1", "", f"{LACKS} $run make levels 2>&1 >/dev/null | wc -l")
case("or in none", 0, "#####", "", f"{LACKS} SOKOAUDIT_QUIET=1 $run dead levels 1")
case("its statuses are the program's", 1, "level 1 missing", NOTE,
     f"{LACKS} $run audit levels <(echo sokoban-answers 1)")
case("and so are its faults", 2, "", "answers line 1 header", f"{LACKS} $run audit levels levels")
case("and nothing is built", 0, "", "", "ls $tree/crates/sokoaudit/out 2>/dev/null; exit $(builds)")
case("neither toolchain nor Python", 2, "", "neither the command rt of the Rattle toolchain nor "
     "python3 is on the PATH", "PATH=$tree/../bare $run audit levels answers")
# what another system has: one program for all of its commands, without the options of GNU
os.mkdir("small")
for it in (cases.needs("busybox", "the script on a small system") and run(["busybox", "--list"])
           or "").split("\nstatus")[0].split():
    os.symlink(shutil.which("busybox") or "", f"small/{it}")
os.symlink(sys.executable, "small/python3")
SHELLS = {"dash": "dash", "bash": "bash", "zsh": "zsh", "busybox": "busybox sh"}
for shell_name, words in SHELLS.items():
    if cases.needs(shell_name, "the script under another shell"):
        case(f"it runs under {words}", 0, "level 1 solved moves 1 pushes 1 changes 1", NOTE,
             f"PATH=$tree/../plain {words} $run audit levels answers")
if os.path.exists("small/sh"):
    case("it runs on a small system", 0, "level 1 solved moves 1 pushes 1 changes 1", NOTE,
         "ln -s ../link far; ln -s \"$tree\" ../link; ln -s far/sokoaudit it; PATH=$tree/../small "
         "./it audit levels answers; s=$?; rm it far ../link; exit $s")
# installation without the toolchain, and without what a small system lacks
tools, places = f"{LACKS} make -s -C \"$top\"", "\"DESTDIR=$PWD/root\" PREFIX=/usr"
alone = f"{sys.executable} \"$top/packaging/install-tools\""
case("install-tools needs no toolchain", 0, "", "", f"{tools} install-tools {places}")
case("it needs Python alone", 0, "", "",
     f"PATH=none {alone} alone/usr; diff -r root alone; for it in root alone; do "
     "(cd $it; find . -printf '%m %p\\n' | sort >../$it.modes); done; cmp root.modes alone.modes")
case("and removes what it installed", 0, "", "",
     f"PATH=none {alone} --remove alone/usr; find alone -type f")
case("documents are no commands, wherever the prefix is", 0, "4", "",
     f"PATH=none {alone} alone/bin/usr; find alone -type f -perm 755 | wc -l; rm -r alone/bin")
case("an installation that fails says where", 1, "", "install-tools: alone/levels/bin: Not a dir",
     f"touch alone/levels; PATH=none {alone} alone/levels")
# who isn't root could write nothing there
case("an empty prefix is none", 1, "", "usage: packaging/install-tools",
     "$nobody $tree/packaging/install-tools ''")
case("nor is it to what installs the program", 2, "", "usage: packaging/install PROGRAM PREFIX",
     "files=($tree/CHANGELOG.md $tree/crates/arguments/src/command.rt); touch \"${files[@]}\"; "
     f"TMPDIR=/tmp {LACKS} $nobody $tree/packaging/install /bin/true ''; s=$?; "
     "rm \"${files[@]}\"; exit $s")
case("it installs the reference", 0, "level 1 solved moves 1 pushes 1 changes 1", NOTE,
     "root/usr/bin/sokoaudit audit levels answers")
case("and its help", 0, help, "", "root/usr/bin/sokoaudit --help")
case("and the completions of both programs", 0, "6", "", "cd root/usr/share; ls bash-completion/"
     "completions/{sokoaudit,sokotool} zsh/site-functions/_{sokoaudit,sokotool} "
     "fish/vendor_completions.d/{sokoaudit,sokotool}.fish | wc -l")
case("and sokotool, which finds the reference", 0, "it: 1 level, 1 solved, 0 unsolvable, "
     "0 refused, 0 missing", "", "PATH=$PWD/root/usr/bin:$tree/../plain SOKOAUDIT= sokotool check "
     "it levels --answers answers; grep -q 'by the reference' it.report")
case("it leaves a program that is installed", 0, "1", "",
     "cp --remove-destination -L /bin/true root/usr/bin/sokoaudit; "
     f"{tools} install-tools {places} 2>&1; cmp /bin/true root/usr/bin/sokoaudit && echo 1")
case("and nothing is left by uninstall", 1, "", "",
     f"{tools} uninstall {places}; find root -type f | grep .")
for name in ("sokoaudit", "sokotool"):
    case(f"a copy of {name} alone says what it lacks", 2, "",
         f"{name}: this script needs the files beside it: make a link to it, or install it",
         f"mkdir lone; cp \"$top/{name}\" lone; {LACKS} lone/{name} -V; s=$?; rm -r lone; exit $s")
case("sokotool runs as a module", 0, version.replace("sokoaudit", "sokotool"), "",
     f"cd \"$top/tools\" && {sys.executable} -B -m sokotool --version")
old_python = "import runpy, sys; sys.version_info = 3, 7; runpy.run_path(sys.argv[1])"
case("an old Python is named", 2, "", "sokotool: this script needs Python 3.8 or later",
     f"{sys.executable} -c '{old_python}' \"$top/sokotool\"")
# a program that the system can't run
case("a program that can't be run is no refused level", 2, "", "perhaps of other sources",
     "mkdir -p $tree/crates/sokoaudit/out; printf '#!/other-bin/none\\n' | install -m 755 "
     f"/dev/stdin $tree/crates/sokoaudit/out/sokoaudit; {LACKS} $run audit levels answers; s=$?; "
     "rm -r $tree/crates/sokoaudit/out; exit $s")
case("the first run builds", 0, "one one one|HERE|a  b c", "proved sokoaudit, 3 functions, 0:0",
     "BESIDE=99 $run 'a  b' c")
# a job needs 2.5 GB
if int(read("/proc/meminfo").split("MemAvailable:")[1].split()[0]) < 5000000:
    cases.skip("two libraries side by side", "this machine has no memory for two")
else:
    case("two libraries are proved side by side", 0, "begin begin end end", "",
         "echo $(sed 's/ .*//' $tree/lanes)")
case("a run with nothing new reports nothing", 1, "one one one|HERE|refused", "", "$run refused")
case("and builds nothing", 0, "1", "", "builds")
case("a run after an edit takes the new sources", 0, "two one one|HERE|a", "proved sokoaudit",
     "edit two; $run a")
for what, file in (("a definition", "crates/low/specs/Low.antt"), ("the crates", "crates.txt"),
                   ("a lemma", "crates/low/proofs/Low.antt")):
    case(f"a run after an edit of {what} builds", 0, "two one one|HERE|a", "proved sokoaudit",
         f"echo >>$tree/{file}; $run a")
other = "printf '#!/bin/sh\\necho other' >$tree/crates/sokoaudit/out/sokoaudit"
case("another program in its place is built anew", 0, "two one one|HERE|a", "proved sokoaudit",
     f"{other}; $run a")
asked = "echo $(grep -o 'jobs.*' $tree/lanes | sort)"
case("in as many jobs as JOBS says, and half as many for what is proved beside", 0, "jobs 2 jobs 3",
     "proved", f"edit six; rm $tree/lanes; JOBS=3 $run a >/dev/null; {asked}")
case("one after the other, if that is 1", 0, "begin end begin end", "proved",
     "edit eight; rm $tree/lanes; LIBRARY=0.5 JOBS=1 $run a >/dev/null; "
     "echo $(sed 's/ .*//' $tree/lanes)")
# what the reference prints while the program is built
REFERENCE = "not proved: the reference, a second implementation in Python, says:"
case("the reference prints its report at once", 0, "seven one one|HERE|audit levels answers",
     f"{REFERENCE}\nlevel 1 solved moves 1 pushes 1 changes 1\ntotal 1 ",
     "edit seven; PROGRAM=3 $run audit levels answers")
case("and nothing where nothing is built", 0, "seven one one|HERE|audit levels answers", "",
     "$run audit levels answers")
case("it prints the error that it finds", 0, "", f"{REFERENCE}\nanswers line 1 header",
     "edit nine; PROGRAM=3 $run audit levels levels >/dev/null")
for words in ("audit - answers", "make /dev/null", "dead .. 1", "audit levels", "-V",
              "make -- none", "solve levels"):
    case(f"it prints nothing for: {words}", 0, "", "", f"$tree/packaging/preview {words}")
case("names after two hyphens are files", 0, "", "sokoban-answers 1",
     "$tree/packaging/preview make -- levels")
broken = "python 'echo level 1 missing; echo Traceback >&2; exit 1'"
case("it prints nothing if it fails", 0, "", "", f"{broken}; $tree/packaging/preview make levels")
case("no Python is no fault", 0, "", "", "python 'exit 127'; $tree/packaging/preview make levels")
soon = "printf '#!/bin/sh\\nshift; exec /usr/bin/timeout 0.3 \"$@\"\\n'"
soon = f"{soon} | install -m 755 /dev/stdin ../bin/timeout"
soon += "; sleeps='echo $$ >$tree/../slept; exec sleep 61'"
case("it is ended after its time", 0, "",
     "the reference takes over 10 seconds for these words, and was ended",
     f"{soon}; python \"$sleeps\"; $tree/packaging/preview make levels; rm ../bin/timeout")
waits = ("edit ten; PROGRAM=3 $run make levels >said; python; for it in {1..50}; do "
         "kill -0 $(cat $tree/../slept) 2>/dev/null || break; sleep 0.1; done; [ $it != 50 ]")
case("it never delays the build, and ends with it", 0, "ten one one|HERE|make levels",
     "proved sokoaudit", f"{waits} && [ $SECONDS -lt 50 ] && cat said")
# the gate's program
took = "$tree/packaging/build --took \"$($tree/packaging/sources)\""
case("the program of the gate is taken over", 0, "gate one one|HERE|a", "",
     f"edit gate; (cd $tree/crates/sokoaudit && rt run >/dev/null); {took}; $run a")
case("but not if the sources have changed since", 0, "stale one one|HERE|a", "proved sokoaudit",
     "sum=$($tree/packaging/sources); edit stale; $tree/packaging/build --took $sum; $run a")
for seconds in (0.3, 2.2):
    # an interrupt, as a terminal sends it to all processes in front
    slow = "LIBRARY=1.5 PROGRAM=1.5 exec $run make levels"
    command = ["bash", "-c", f"{BEFORE} edit stopped{seconds}; {slow}"]
    # a gate in the background ignores interrupts, and so would what it starts
    ran = subprocess.Popen(command, cwd=here, stdout=subprocess.PIPE, stderr=subprocess.STDOUT,
                           start_new_session=True, text=True,
                           preexec_fn=lambda: signal.signal(signal.SIGINT, signal.SIG_DFL))
    time.sleep(seconds)
    os.killpg(ran.pid, signal.SIGINT)
    said = ran.communicate()[0]
    is_so = ran.returncode in (2, -signal.SIGINT) and "|make levels" not in said
    cases.holds(f"an interrupt after {seconds} s ends the build", is_so,
                f"status {ran.returncode}", *said.splitlines())
case("and the next run builds", 0, "stopped2.2 one one|HERE|a", "proved sokoaudit", "$run a")
old = "edit one; touch -d '1 hour ago' $tree/crates/low/src/main.rt"
case("also where the new file has an old time", 0, "one one one|HERE|a", "proved sokoaudit",
     f"{old}; $run a")
first = "edit three; rm $tree/builds; { PROGRAM=3 $run first; echo $? >other; } >out 2>&1 & "
first += "for it in {1..600}; do flock -n $tree/crates true || break; sleep 0.1; done"
case("two first runs at once", 0, "three one one|HERE|second", "waits for another run",
     f"{first}; $run second; s=$?; wait; exit $s")
case("both end well, and one of them builds", 0, "0 1", "", "echo $(cat other) $(builds)")
links = "ln -s $tree ../link; ln -s ../link/sokoaudit linked"
case("a link to the script", 0, "three one one|HERE|a", "", f"{links}; ./linked a")
case("CDPATH", 0, f"three one one|{room}|a", "", "cd ..; CDPATH=$PWD:$tree link/sokoaudit a")
case("a failed proof is no refused level", 2, "", "fn main: not proved", "edit wrong; $run refused")
case("the place of its lines is named", 2, "", f"is in {tree}/crates/sokoaudit/out/log",
     "$run refused")
lock = "edit four; chmod -R a+rX,go-w $tree; chmod -R u-w $tree/crates"
case("a checkout that can't be written is named", 2, "", f"nothing can be written in {tree}",
     f"{lock}; $nobody $run a")
case("once built", 0, "four one one|HERE|a", "proved sokoaudit",
     "chmod -R u+w $tree/crates; $run a")
case("it runs for others", 0, "four one one|HERE|a", "", "$nobody $run a")
case("no file is left in the repository", 1, "", "", "git -C $tree status --porcelain | grep '^?'")
case("without the toolchain a built program runs", 0, "four one one|HERE|a",
     "perhaps of other sources", f"{LACKS} $run a")
case("and help needs none", 0, help, "", f"{LACKS} $run --help")
for target, tested in (("lib", "library crates/sokoaudit/out/sokoaudit out/lib"),
                       ("dist", "packages crates/sokoaudit/out")):
    case(f"make {target} tests what it makes", 0, f"tests/run {tested}", "",
         f"make -s -n -C $tree {target} | tail -n 1")
case("make needs it", 2, "", "the command rt of the Rattle toolchain is not on the PATH",
     f"{LACKS} $tree/packaging/build")
case("an old C library", 2, "", "glibc 2.34 or later",
     "edit five; fakes getconf 'glibc 2.31'; $run a")
case("another system", 2, "", "Linux on x86-64", "fakes uname 'Darwin arm64'; $run a")
if cases.needs("script", "a run on a terminal"):
    on_terminal = f"{MACHINE}; PROGRAM=2.5 script -qc '\"$run\" a' terminal"
    count = "proving sokoaudit, 2 of 3 functions, 0:(0[1-9]|[1-5])"
    shown = f"grep -Eq '{count}' terminal || cat terminal >&2"
    case("on a terminal one line shows the progress", 0, "", "", f"{on_terminal} >said && {shown}")
cases.finish()
