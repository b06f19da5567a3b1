"""Takes Linux's source, and builds the harness with it: srcutree.c, rcu_segcblist.c and notifier.c as they are.

Nothing of Linux stays in the repository: the source package is taken by `apt-get download`, unpacked below bench/out, and
only the files that are needed are kept there."""

import glob, os, re, shutil, subprocess, sys

HERE = os.path.dirname(os.path.realpath(__file__))
OUT = f"{os.path.dirname(HERE)}/out/linux"

VERSIONS = ("6.12", "6.1")
FANOUTS = (4, 16)
MOST_PROCESSORS = 256  # as many as the program's domains have; the tree of each fan-out has room for them

# What is taken from the package.
WHOLE = ["kernel/rcu/srcutree.c", "kernel/rcu/rcu.h", "kernel/rcu/rcu_segcblist.c", "kernel/rcu/rcu_segcblist.h"]
WHOLE += ["kernel/notifier.c"]
HEADERS = ["srcu", "srcutree", "rcu_segcblist", "rcu_node_tree", "notifier"]
CUT_FROM = ["include/linux/rcupdate.h", "kernel/rcu/tree.c"]
TAKEN = [*WHOLE, *(f"include/linux/{name}.h" for name in HEADERS), *CUT_FROM, "Makefile"]

# Headers of Linux that shim.h stands for.
SHIMS = """atomic completion cpu delay export interrupt kdebug kernel kprobes math module mutex percpu preempt rcupdate
rcupdate_wait reboot rwsem sched slab smp types vmalloc workqueue""".split()

OWN = ["tasks.c", "hooks.c", "engine.c", "callbacks.c", "chains.c", "script.c"]
LINUX = ["rcu/rcu_segcblist.c", "notifier.c"]
FLAGS = ["-O1", "-D__KERNEL__", "-g", "-std=gnu11", "-fno-strict-aliasing", "-include", "shim.h", "-include", "cut_numbers.h"]
FLAGS += [f"-DCONFIG_{name}" for name in ("64BIT", "SMP", "TREE_RCU", "SRCU", "TREE_SRCU")]


class Trouble(Exception):
    """The run can't go on; its text says why."""


def text_of(path):
    with open(path, errors="replace") as file:
        return file.read()


def write(path, text):
    os.makedirs(os.path.dirname(path), exist_ok=True)
    with open(path, "w") as file:
        file.write(text)


def run(words, **how):
    done = subprocess.run(words, stdout=subprocess.PIPE, stderr=subprocess.STDOUT, text=True, errors="replace", **how)
    if done.returncode:
        raise Trouble(f"{' '.join(words)}:\n{done.stdout}")


def is_tree(folder):
    return all(os.path.isfile(f"{folder}/{name}") for name in TAKEN)


def name_of(tree):
    """The version of an unpacked kernel, as its Makefile has it."""
    found = dict(re.findall(r"^(VERSION|PATCHLEVEL|SUBLEVEL) = (\d+)$", text_of(f"{tree}/Makefile"), re.M))
    return ".".join(found.get(part, "?") for part in ("VERSION", "PATCHLEVEL", "SUBLEVEL"))


def download(version, folder):
    """Asks apt for the package, and returns its file."""
    package = f"linux-source-{version}"
    print(f"taking {package} from Debian (about 150 MB) into {folder}", file=sys.stderr)
    os.makedirs(folder, exist_ok=True)
    try:
        run(["apt-get", "download", package], cwd=folder)
    except (Trouble, OSError) as error:
        raise Trouble(
            f"{error}\n{package} can't be had: it takes Debian, its lists (`apt-get update` as root), and for 6.12 on Debian 12"
            " the suite bookworm-security.\nOr give an unpacked kernel: --linux FOLDER"
        )
    return max(glob.glob(f"{folder}/{package}_*.deb"), key=os.path.getmtime)


def unpack(package, version, tree):
    """Unpacks what is needed from the archive inside the package."""
    partly = f"{tree}.part"
    shutil.rmtree(partly, ignore_errors=True)
    os.makedirs(partly)
    members = " ".join(f"linux-source-{version}/{name}" for name in TAKEN)
    archive = f"./usr/src/linux-source-{version}.tar.xz"
    pipe = f'dpkg-deb --fsys-tarfile "$1" | tar -xO -f - {archive} | tar -xJ -C "$2" --strip-components=1 -f - {members}'
    run(["bash", "-o", "pipefail", "-c", pipe, "", package, partly])
    os.rename(partly, tree)


def take(source):
    """Returns the folder of an unpacked kernel: the given one, or that of a version, which is taken once."""
    if source not in VERSIONS:
        tree = os.path.realpath(source)
        missing = [name for name in TAKEN if not os.path.isfile(f"{tree}/{name}")]
        if missing:
            raise Trouble(f"{source} is no unpacked kernel and no version ({', '.join(VERSIONS)}): it has no {missing[0]}")
        return tree
    tree = f"{OUT}/linux-{source}"
    if not is_tree(tree):
        package = download(source, f"{OUT}/package")
        shutil.rmtree(tree, ignore_errors=True)
        unpack(package, source, tree)
        shutil.rmtree(f"{OUT}/package")
    return tree


def copy_edited(tree, folder, edits):
    """Copies Linux's files, with the edits of a wrong kernel. Each has to change what it names."""
    for name in TAKEN:
        os.makedirs(os.path.dirname(f"{folder}/{name}"), exist_ok=True)
        shutil.copyfile(f"{tree}/{name}", f"{folder}/{name}")
    for edit in edits:
        path = f"{folder}/{edit.file}"
        write(path, edit.applied(text_of(path)))


def cut_numbers(tree):
    """How numbers are compared and laid out, from rcupdate.h and nowhere else."""
    wanted = r"^#define (?:ULONG_CMP_(?:GE|LT)|RCU_SEQ_(?:CTR_SHIFT|STATE_MASK)).*\n"
    return "".join(re.findall(wanted, text_of(f"{tree}/include/linux/rcupdate.h"), re.M))


def cut_geometry(tree):
    """The geometry of the tree: of tree.c a function, and the variables that it sets."""
    text = text_of(f"{tree}/kernel/rcu/tree.c")
    variables = r"^(?:int rcu_num_lvls|int num_rcu_lvl|int rcu_num_nodes|static int rcu_fanout_leaf) *(?:\[\])?.*=.*\n"
    function = re.search(r"^void rcu_init_geometry\(void\)\n.*?^}\n", text, re.M | re.S)
    return "".join(re.findall(variables, text, re.M)) + function[0]


def lay_out(tree, folder):
    """Makes the folder that is compiled in: shims, Linux's own files by link, and pieces of two more."""
    shutil.rmtree(folder, ignore_errors=True)
    for name in SHIMS:
        write(f"{folder}/include/linux/{name}.h", '#include "shim.h"\n')
    for name in ("rcu", "notifier"):
        write(f"{folder}/include/trace/events/{name}.h", '#include "shim.h"\n')
    write(f"{folder}/include/linux/errno.h", "#include <asm/errno.h>\n")  # the C library's own <errno.h> comes here too
    for name in HEADERS:
        os.symlink(f"{tree}/include/linux/{name}.h", f"{folder}/include/linux/{name}.h")
    for name in WHOLE:
        link = f"{folder}/{name.removeprefix('kernel/')}"
        os.makedirs(os.path.dirname(link), exist_ok=True)
        os.symlink(f"{tree}/{name}", link)
    write(f"{folder}/include/cut_numbers.h", cut_numbers(tree))
    write(f"{folder}/include/cut_geometry.h", cut_geometry(tree))


def flags_of(tree, folder, fanout):
    flags = [*FLAGS, f"-DCONFIG_RCU_FANOUT={fanout}", f"-DCONFIG_RCU_FANOUT_LEAF={fanout}"]
    flags += [f"-DNR_CPUS={MOST_PROCESSORS}", f"-I{HERE}", f"-I{folder}", "-isystem", f"{folder}/include"]
    if re.search(r"^struct srcu_usage", text_of(f"{tree}/include/linux/srcutree.h"), re.M):
        flags.append("-DHAS_USAGE")
    return flags


def compile_all(tree, folder, fanout):
    compiler = os.environ.get("CC", "cc")
    flags = flags_of(tree, folder, fanout)
    objects = []
    for path in [f"{HERE}/kernel.c", *(f"{folder}/{name}" for name in LINUX), *(f"{HERE}/{name}" for name in OWN)]:
        is_own = os.path.basename(path) in OWN
        warnings = ["-Wall", "-Wextra", "-Werror"] if is_own else ["-w"]
        objects.append(f"{folder}/{os.path.basename(path)[:-2]}.o")
        run([compiler, *flags, *warnings, "-c", path, "-o", objects[-1]])
    run([compiler, *objects, "-o", f"{folder}/harness"])
    return f"{folder}/harness"


def is_current(program, tree):
    """Whether the program was built since what it is made of was changed."""
    if not os.path.isfile(program):
        return False
    inputs = [*glob.glob(f"{HERE}/*.[ch]"), f"{HERE}/building.py", *(f"{tree}/{name}" for name in TAKEN)]
    return all(os.path.getmtime(it) < os.path.getmtime(program) for it in inputs)


def build(tree, fanout, name="", edits=()):
    """Builds the harness with this kernel, if it isn't there, and returns the program."""
    folder = f"{OUT}/build/{name_of(tree)}-{fanout}{name and '-' + name}"
    if edits:
        copy_edited(tree, f"{folder}-source", edits)
        tree = f"{folder}-source"
    elif is_current(f"{folder}/harness", tree):
        return f"{folder}/harness"
    lay_out(tree, folder)
    return compile_all(tree, folder, fanout)


def has_completed(tree):
    """Whether this kernel knows cookie 1 as the completed one, which 6.1 doesn't."""
    return "SRCU_GET_STATE_COMPLETED" in text_of(f"{tree}/include/linux/srcu.h")
