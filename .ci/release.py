"""The release: made twice of what is built, with the same bytes, and then used as a stranger would (.ci/release.sh), in
a root that has neither the Rattle kit, nor cargo, nor a network: scripts played, audited and drawn, three nodes, a
store of three processes asked by redis-cli, a program in C and one in Python, and some of it as the Debian package has.
Where cargo is, a package of its own takes the crate. Runs alone too: python3 .ci/release.py [--proved], over what
`./epaxos --build --unproved` made, or with --proved `./epaxos --build`.

The root is a folder with copies of a shell, the core utilities, Python and redis-cli, as far as they are here, and of
the libraries that these need. It is entered by `unshare`; where that isn't allowed, the release is only made.
"""

import filecmp
import glob
import os
import re
import shutil
import subprocess
import sys
import tempfile

TOP = os.path.dirname(os.path.dirname(os.path.abspath(__file__)))
sys.path.insert(0, f"{TOP}/tools")
import needs
from loaded import loaded

TOOLS = (
    "sh", "bash", "cat", "cmp", "cp", "env", "grep", "gzip", "head", "ls", "mkdir", "mv", "printf", "readlink",
    "realpath", "rm", "sed", "sha256sum", "sleep", "stat", "tail", "test", "tr", "true", "wc", "redis-cli",
)  # fmt: skip
# parts of Python's own library that nothing here needs
UNNEEDED = ("__pycache__", "test", "config-*", "idlelib", "lib2to3", "site-packages", "dist-packages")
# enters the root given, with the loopback device up, and runs its script
ENTER = """
import fcntl, os, socket, struct, subprocess, sys
root = sys.argv[1]
for words in (["mount", "-t", "proc", "proc", f"{root}/proc"], ["mount", "--rbind", "/dev", f"{root}/dev"]):
    subprocess.run(words, check=True)
with socket.socket(socket.AF_INET, socket.SOCK_DGRAM) as it:
    # (SIOCSIFFLAGS: up and running)
    fcntl.ioctl(it, 0x8914, struct.pack("16sh14x", b"lo", 0x41))
os.chroot(root)
os.chdir("/")
os.execve("/bin/sh", ["sh", "/try.sh"], {"PATH": "/usr/bin:/bin", "HOME": "/tmp", "PORT": "7000"})
"""
# what a stranger does there
SCRIPT = f"{TOP}/.ci/release.sh"
MANIFEST = """[package]
name = "taken"
version = "1.0.0"
edition = "2024"

[dependencies]
epaxos = { path = "epaxos" }

[workspace]
"""
TAKEN = """
use epaxos::{Cluster, Replica};

fn main() {
    let mut replica = Replica::new(Cluster::Three, 0).expect("a replica");
    let _ = replica.ready().expect("the log's header");
}
"""


def tool():
    """The module of tools/release."""
    return loaded("make_release", f"{TOP}/tools/release")


def libraries(path):
    """The libraries that a program needs."""
    said = subprocess.run(["ldd", path], stdout=subprocess.PIPE, stderr=subprocess.DEVNULL, text=True).stdout
    return re.findall(r"(/\S+) \(0x", said)


def bare_root(root, programs):
    """Makes a root with a shell and a few tools, and what these programs need too."""
    for it in ("bin", "usr/bin", "tmp", "proc", "dev", "etc", "opt"):
        os.makedirs(f"{root}/{it}", exist_ok=True)
    with open(f"{root}/etc/passwd", "w", encoding="utf-8") as file:
        file.write("root:x:0:0:root:/root:/bin/sh\n")
    found = [it for it in (shutil.which(name, path="/usr/bin:/bin") for name in TOOLS) if it]
    python = os.path.realpath("/usr/bin/python3")
    if os.path.isfile(python):
        standard = f"/usr/lib/{os.path.basename(python)}"
        shutil.copytree(standard, root + standard, ignore=shutil.ignore_patterns(*UNNEEDED))
        programs = [*programs, *glob.glob(f"{standard}/lib-dynload/*.so")]
        shutil.copy(python, f"{root}/usr/bin/python3")
        programs.append(python)
    for it in found:
        shutil.copy(os.path.realpath(it), f"{root}/usr/bin/{os.path.basename(it)}")
        if not os.path.exists(f"{root}/bin/{os.path.basename(it)}"):
            os.symlink(f"../usr/bin/{os.path.basename(it)}", f"{root}/bin/{os.path.basename(it)}")
    for library in {library for it in (*found, *programs) for library in libraries(os.path.realpath(it))}:
        os.makedirs(os.path.dirname(root + library), exist_ok=True)
        shutil.copy(os.path.realpath(library), root + library)


def may_enter():
    """Whether a root of its own may be entered here."""
    words = ["unshare", "--net", "--mount", "--pid", "--fork", "--kill-child"]
    words += ["--map-root-user"] * (os.geteuid() != 0)
    is_so = shutil.which("unshare") and not subprocess.run([*words, "true"], stderr=subprocess.DEVNULL).returncode
    return words if is_so else None


def used(archive, package, folder):
    """Uses the archive and the package in a bare root, and returns the lines that this says."""
    root = f"{folder}/root"
    os.mkdir(root)
    subprocess.run(["tar", "-xzf", archive, "-C", root], check=True)
    top = glob.glob(f"{root}/epaxos-*-x86_64-linux")[0]
    example = f"{root}/tmp/example"
    os.makedirs(f"{root}/tmp", exist_ok=True)
    words = ["cc", "-std=c11", "-O2", f"-I{top}/include", f"{top}/bindings/c/example.c", f"{top}/lib/libepaxos.a"]
    subprocess.run([*words, "-o", example], check=True)
    if package:
        subprocess.run(["dpkg-deb", "-x", package, root], check=True)
    bare_root(root, [example, f"{top}/bin/epaxos-store", *glob.glob(f"{top}/libexec/epaxos/ep_*/epaxos")])
    shutil.copy(SCRIPT, f"{root}/try.sh")
    how = {"stdin": subprocess.DEVNULL, "stdout": subprocess.PIPE, "text": True}
    ran = subprocess.run([*may_enter(), sys.executable, "-c", ENTER, root], **how)
    failed = [f"FAILED the root was left with status {ran.returncode}"] if ran.returncode else []
    return ran.stdout.splitlines() + failed


def dead_links(archive, folder, sources):
    """The links of the archive's pages that lead nowhere there, nor to these sources."""
    subprocess.run(["tar", "-xzf", archive, "-C", folder], check=True)
    top = glob.glob(f"{folder}/epaxos-*")[0]
    for page in glob.glob(f"{top}/**/*.md", recursive=True):
        with open(page, encoding="utf-8") as file:
            found = re.findall(r"\]\(([^)\s#]+)", file.read())
        for target in found:
            path = os.path.normpath(os.path.join(os.path.dirname(page), target))
            inside = os.path.relpath(path, top)
            if "://" not in target and not os.path.exists(path) and not inside.startswith(sources):
                yield f"{os.path.relpath(page, top)}: {target}"


def taken(archive, folder):
    """Whether a package of its own takes the crate out of the archive and finds the library there, without the kit."""
    subprocess.run(["tar", "-xzf", archive, "-C", folder], check=True)
    crate = glob.glob(f"{folder}/epaxos-*/bindings/rust/epaxos")[0]
    os.makedirs(f"{folder}/taken/src")
    shutil.move(crate, f"{folder}/taken/epaxos")
    for path, text in (("Cargo.toml", MANIFEST), ("src/main.rs", TAKEN)):
        with open(f"{folder}/taken/{path}", "w", encoding="utf-8") as file:
            file.write(text)
    kept = ":".join(it for it in os.environ["PATH"].split(":") if not os.path.exists(f"{it}/rt"))
    how = {"cwd": f"{folder}/taken", "stdin": subprocess.DEVNULL, "env": {**os.environ, "PATH": kept}}
    return subprocess.run(["cargo", "run", "--quiet", "--offline"], **how).returncode == 0


def tried(make, store=None):
    """Makes the release of what `make` gives, twice, and uses it; returns how many checks passed, how many failed."""
    release, checks = tool(), []

    def check(name, is_so):
        checks.append(bool(is_so))
        print(f"release: {'passed' if is_so else 'FAILED'} {name}", flush=True)

    with tempfile.TemporaryDirectory(prefix="epaxos-released-") as folder:
        try:
            made = make(release)
            store = store or release.build_store(made, folder)
            first, second = (release.make(made, f"{folder}/{it}", store) for it in "12")
        except release.NotReleased as why:
            check(f"it is made: {why}", False)
            return 0, 1
        for one, other in zip(first, second):
            is_same = filecmp.cmp(one, other, shallow=False)
            check(f"{os.path.basename(one)} has the same bytes when it is made again", is_same)
        os.mkdir(f"{folder}/pages")
        dead = [*dead_links(first[0], f"{folder}/pages", release.OF_SOURCES)]
        check("".join(["the links of its pages", *(f"; dead: {it}" for it in dead)]), not dead)
        needs.has("dpkg-deb", "the package of a release")
        needs.has("redis-cli", "the store of a release")
        if not may_enter():
            needs.skip("a release in a root of its own", "none may be entered here")
        elif all([needs.has(it, "a release in a root of its own") for it in ("cc", "ldd")]):
            for line in used(first[0], first[1] if len(first) > 1 else None, folder):
                if line.startswith(("passed ", "FAILED ")):
                    check(line.partition(" ")[2], line.startswith("passed "))
                else:
                    print(line, flush=True)
        if needs.has("cargo", "the crate of a release"):
            os.mkdir(f"{folder}/crate")
            check("the crate in a package of its own", taken(first[0], f"{folder}/crate"))
    return checks.count(True), checks.count(False)


def of_gate():
    """The release over what the gate's other parts built: the programs that `rt ci` proved, and the library without its
    proofs."""
    store = f"{TOP}/hosts/store/target/debug/store"

    def make(release):
        programs = {it: f"{TOP}/crates/{it}/out/{it}" for it in release.PROGRAMS}
        kit = release.said("rt", "version")
        is_proved = os.path.isfile(f"{TOP}/out/libepaxos.a")
        return release.Built(programs, f"{TOP}/out" if is_proved else f"{TOP}/out/unproved", kit, False)

    return tried(make, store if os.path.isfile(store) else None)


if __name__ == "__main__":
    sys.dont_write_bytecode = True
    passed, failed = tried(lambda release: release.found(sys.argv[1:] == ["--proved"]))
    print(f"{passed} passed, {failed} failed")
    sys.exit(failed > 0)
