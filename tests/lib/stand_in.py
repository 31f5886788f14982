"""A repository and a kit that stand in for the real ones, in a folder of their own, so that the script `herdspiral` can be
tried without proving anything: an `rt` that notes its calls and builds by copying, a loader that starts what it is given,
and as the program a shell script that a test hands in. The script can be started by any shell, and with any awk."""
import os
import re
import shutil
import time

import program
import repository
from program import Told

# It takes its standard input and writes to both outputs, so that a session lost or a line too many is seen. It locks
# the folders of the crates that it is at, and says so where it has to wait for another. A file in the kit's folder has
# it edit a crate meanwhile, go on only when another file says so, say that it waits, refuse, be killed, or remove what
# it built. As `rt ci` it removes the crates' out/. As `rt run` it goes on to run what it built, on its own input; a
# file has that run fail.
RT = """#!/bin/sh
echo "$* in ${PWD##*/}" >>"$KIT/calls"
cat >/dev/null
held() {
    [ -e "$KIT/hold" ] || return
    while [ ! -e "$KIT/go" ]; do sleep 0.05; done
    echo "$* ended" >>"$KIT/calls"
}
locked() {
    command -v flock >/dev/null || return
    exec 7<"$1/one" 8<"$1/herdspiral"
    for each in 7 8; do
        flock -n $each || { echo "rt: waiting for another rt to finish in $1" >&2 && flock $each; }
    done
}
[ "$1" != version ] || exit 0
[ "$1" != ci ] || { locked crates; rm -rf crates/*/out; held "$@"; exit; }
locked ..
[ ! -e "$KIT/wait" ] || { for each in one herdspiral; do echo "rt: waiting for another rt to finish in $each"; done; }
echo 'rt: said on standard output'
echo 'rt: said on standard error' >&2
echo 'rt: chose --jobs 2 for one' >&2
echo 'logic=proved functions=1' >&2
echo 'rt: chose --jobs 2 for herdspiral' >&2
[ ! -e "$KIT/edit" ] || { sleep 0.1; echo edited >>../one/src/lib.rt; }
held "$@"
[ ! -e "$KIT/refuse" ] || exit 1
[ ! -e "$KIT/killed" ] || { printf 'rt: half a line'; kill -9 $$; }
mkdir -p out ../one/out
[ -e out/herdspiral.stamp ] && [ -e out/herdspiral ] || cp "$KIT/program" out/herdspiral
: >out/herdspiral.stamp
echo 'rt: running out/herdspiral; to give it other input, run that file yourself' >&2
[ ! -e "$KIT/remove" ] || rm -r out
[ ! -e "$KIT/fail" ] || exit 7
echo 'refused 1 0'
"""
LOADER = '#!/bin/sh\n[ "$1" = --library-path ] || exit 99\nshift 2\nexec "$@"\n'
EMULATOR = '#!/bin/sh\n: >"$KIT/emulated"\nexec "$@"\n'
CAT = "#!/bin/sh\nexec cat\n"  # a program that prints the session's bytes
# One that notes besides that it was started, and with which arguments.
ECHO = """#!/bin/sh
{ printf started; for word; do printf ' <%s>' "$word"; done; echo; } >>"$KIT/starts"
exec cat
"""
TOOLS = ("od", "sed", "tr", "awk", "find", "uname", "readlink", "cat", "date", "flock", "mkdir", "mv", "rm", "cp", "sleep")
AWKS = ("mawk", "gawk", "busybox awk", "original-awk")

BUILDING = "proving and building the program; the first time this takes some minutes"
PROGRESS = ["proving 1 of 2: one", "proving 2 of 2: herdspiral"]
BUILT = "proved and built in N s"  # however many seconds


def put(path, text, mode=0o644):
    """Writes a file, its folders too."""
    os.makedirs(os.path.dirname(path), exist_ok=True)
    with open(path, "wb") as file:
        file.write(text if isinstance(text, bytes) else text.encode())
    os.chmod(path, mode)


def put_awk(folder, awk):
    """Puts an `awk` into a folder for PATH that is this one."""
    put(os.path.join(folder, "awk"), f'#!/bin/sh\nexec {awk} "$@"\n', 0o755)


def found(commands):
    """Those of some shells or awks that this machine has; says which it lacks."""
    for command in commands:
        if shutil.which(command.split()[0]):
            yield command
        else:
            print(f"not tried, since it is not here: {command}")


def said(*messages):
    """Messages of the script, one after the other."""
    return "".join(f"herdspiral: {words}\n" for words in messages).encode()


def timeless(errors):
    """What was said on standard error, however many seconds building took."""
    return re.sub(rb"(proved and built in )(\d+ min )?\d+ s\b", rb"\1N s", errors)


def built(out):
    """A run that built the program first, and then prints this."""
    return Told(out, said(BUILDING, *PROGRESS, BUILT), 0)


class StandIn:
    """The repository `root` and the kit `kit`, both below a folder, with a program that prints the session. By default the
    script is started as it is, with the awk that is found."""

    def __init__(self, folder, shell=(), awk=""):
        self.folder, self.root, self.kit = folder, os.path.join(folder, "the root"), os.path.join(folder, "the kit")
        self.script, self.stamp = os.path.join(self.root, "herdspiral"), os.path.join(self.root, "built", "stamp")
        self.tools, self.shell = os.path.join(self.kit, "toolchain"), list(shell)
        shutil.copytree(repository.path("script"), os.path.join(self.root, "script"))
        shutil.copy(repository.path("herdspiral"), self.script)
        put(os.path.join(self.root, "crates.txt"), "# crates\none: # the first\nother: one\nherdspiral: one io\n")
        put(os.path.join(self.root, "crates", "one", "src", "lib.rt"), "one\n")
        put(os.path.join(self.root, "crates", "one", "src", "more.rt"), "more\n")
        put(os.path.join(self.root, "crates", "one", "specs", "Lib.antt"), "one\n")
        put(os.path.join(self.root, "crates", "herdspiral", "src", "main.rt"), "main\n")
        put(os.path.join(self.kit, "KIT-ID"), "a kit\n")
        self.program(ECHO)
        put(os.path.join(self.kit, "bin", "rt"), RT, 0o755)
        put(os.path.join(self.tools, "lib", "ld-linux-x86-64.so.2"), LOADER, 0o755)
        os.makedirs(os.path.join(folder, "links"))
        os.symlink("../the kit/bin/rt", os.path.join(folder, "links", "rt"))
        if awk:
            put_awk(os.path.join(folder, "links"), awk)

    def program(self, text):
        """What is built from now on."""
        put(os.path.join(self.kit, "program"), text, 0o755)
        shutil.rmtree(os.path.join(self.root, "crates", "herdspiral", "out"), ignore_errors=True)
        shutil.rmtree(os.path.join(self.root, "built"), ignore_errors=True)

    def environment(self, **more):
        """`rt` is found by a link, as an installed kit has it."""
        own = {name: value for name, value in os.environ.items() if name != "RATTLE_HOME"}
        own.update(KIT=self.kit, PATH=os.path.join(self.folder, "links") + os.pathsep + os.environ["PATH"])
        return {**own, **more}

    def command(self, *words, script=None):
        return [*self.shell, script or self.script, *words]

    def start(self, *words, script=None, folder=None, streams=None, **more):
        """What the script comes to with these words, from a folder, with these streams; more is for the environment."""
        told = program.run(self.command(*words, script=script), cwd=folder or self.folder, env=self.environment(**more), **(streams or {}))
        return told._replace(errors=timeless(told.errors))

    def session(self, data, *words, **more):
        """What it comes to with this on its standard input."""
        return self.start(*words, streams={"data": data}, **more)

    def typed(self, text, name="typed.hex"):
        """Starts the script on a file with this text."""
        put(os.path.join(self.folder, name), text)
        return self.start(os.path.join(self.folder, name))

    def note(self, name):
        """Puts a file into the kit's folder: `edit`, `hold`, `go`, `wait`, `refuse`, `killed`, `remove` or `fail`."""
        put(os.path.join(self.kit, name), "")

    def forget(self, *names):
        """Removes such files."""
        for name in names:
            os.remove(os.path.join(self.kit, name))

    def noted(self, name):
        """The lines of a file in the kit's folder: `calls` of rt, or `starts` of the program, with its arguments."""
        path = os.path.join(self.kit, name)
        return open(path).read().split("\n")[:-1] if os.path.exists(path) else []

    def age(self):
        """Makes all that is there old, and the stamp a little less, so that an edit from now on is newer beyond doubt."""
        now = time.time()
        for folder, _, names in os.walk(self.root):
            for path in [folder] + [os.path.join(folder, name) for name in names]:
                os.utime(path, (now - 200, now - 200))
        os.utime(self.stamp, (now - 100, now - 100))

    def bare_path(self, *left_out):
        """A folder for PATH with the tools that the script needs and no `rt`, nor those that are left out."""
        bare = os.path.join(self.folder, "bare")
        os.makedirs(bare, exist_ok=True)
        for tool in TOOLS:
            if os.path.lexists(os.path.join(bare, tool)):
                os.remove(os.path.join(bare, tool))
            if tool not in left_out and shutil.which(tool):
                os.symlink(shutil.which(tool), os.path.join(bare, tool))
        return bare
