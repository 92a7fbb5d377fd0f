"""Packages of many checks, and runs of programs that are measured. The scripts beside this file use it."""
import os
import pathlib
import shlex
import shutil
import subprocess
import time
from dataclasses import dataclass

HERE = pathlib.Path(__file__).resolve().parent
BUILT = HERE.parent / "crates" / "acrun" / "out" / "acrun"
# Headers that a POSIX system has. Those that Autoconf's configure checks before it is asked to are not among them.
HEADERS = """assert.h ctype.h errno.h float.h limits.h locale.h math.h setjmp.h signal.h stdarg.h stddef.h time.h wchar.h wctype.h
aio.h arpa/inet.h cpio.h dirent.h dlfcn.h fcntl.h fmtmsg.h fnmatch.h ftw.h glob.h grp.h iconv.h langinfo.h libgen.h monetary.h
netdb.h net/if.h netinet/in.h nl_types.h poll.h pthread.h pwd.h regex.h sched.h search.h semaphore.h spawn.h sys/mman.h
sys/select.h sys/socket.h sys/time.h sys/wait.h syslog.h termios.h utime.h wordexp.h""".split()
FUNCTIONS = """accept alarm bind chdir chmod chown connect creat ctermid dup2 execve fchdir fchmod fork fstat fsync getcwd getegid
geteuid getgid getgrgid gethostname getopt getppid getpwuid getsockopt kill listen lstat mkdir mkfifo nanosleep opendir pause poll
raise readdir readlink recv select send setsid sigaction socket symlink sysconf tcgetattr umask uname waitpid""".split()
# Declared by headers of C alone. acrun includes unistd.h before a declaration only if the source has checked it.
DECLARATIONS = """EOF SEEK_SET SEEK_CUR BUFSIZ fopen fclose fread fwrite fseek ftell fflush fputs fgets printf scanf malloc calloc
realloc free qsort bsearch atoi atol strtol strtoul getenv system abs strlen strcpy strncpy strcat strcmp strchr strstr strtok
memcpy memmove memset memcmp remove rename rewind perror setbuf ungetc tmpfile puts putchar getchar""".split()


def filled(names, count, missing):
    """Returns so many names, of which about half are given ones. The others are in no system."""
    given = names[: count // 2]
    others = [missing.format(number) for number in range(count - len(given))]
    mixed = [name for pair in zip(given, others) for name in pair]
    return mixed + others[len(given) :]


def lists(macro, names, separator):
    """Returns calls of the macro with all names. A list of acrun has at most 256 entries."""
    parts = [names[at : at + 256] for at in range(0, len(names), 256)]
    return "".join(f"{macro}([{separator.join(part)}])\n" for part in parts)


def write_package(directory, count, front=""):
    """Writes a configure.ac with that many checks, a third of each kind, and the template of its header.

    The text `front` is before the checks.
    """
    third = count // 3
    headers = filled(HEADERS, third, "missing_{}.h")
    functions = filled(FUNCTIONS, third, "missing_function_{}")
    declarations = filled(DECLARATIONS, count - 2 * third, "missing_name_{}")
    directory.mkdir(parents=True, exist_ok=True)
    (directory / "configure.ac").write_text(
        "AC_INIT([checks], [1.0])\nAC_CONFIG_HEADERS([config.h])\nAC_PROG_CC\n"
        + front
        + lists("AC_CHECK_HEADERS", headers, " ")
        + lists("AC_CHECK_FUNCS", functions, " ")
        + lists("AC_CHECK_DECLS", declarations, ", ")
        + "AC_OUTPUT\n"
    )
    macros = [name.replace("/", "_").replace(".", "_").upper() for name in [*headers, *functions]]
    macros += ["DECL_" + name.upper() for name in declarations]
    (directory / "config.h.in").write_text("".join(f"#undef HAVE_{macro}\n" for macro in macros))


@dataclass
class Run:
    """What a run of a program took, in seconds, and how it ended.

    `own` is the processor time of the process itself, and `children` that of the processes that it waited for.
    """

    seconds: float
    own: float
    children: float
    status: int
    output: str


def processor_seconds(child):
    """Returns the processor time of a process without that of its children. It may have ended, but nobody has waited for it."""
    return int(pathlib.Path(f"/proc/{child}/schedstat").read_text().split()[0]) / 1e9


def measured(words, directory, environment=None):
    """Runs a command in a directory, and returns what it took. Its output is in `output.txt` there."""
    words = [str(word) for word in words]
    program = shutil.which(words[0])
    output = directory / "output.txt"
    actions = [
        (os.POSIX_SPAWN_OPEN, 0, os.devnull, os.O_RDONLY, 0),
        (os.POSIX_SPAWN_OPEN, 1, str(output), os.O_WRONLY | os.O_CREAT | os.O_TRUNC, 0o600),
        (os.POSIX_SPAWN_DUP2, 1, 2),
    ]
    os.chdir(directory)
    begun = time.perf_counter()
    child = os.posix_spawn(program, words, {**os.environ, **(environment or {})}, file_actions=actions)
    os.waitid(os.P_PID, child, os.WEXITED | os.WNOWAIT)
    seconds = time.perf_counter() - begun
    own = processor_seconds(child)
    _, status, used = os.wait4(child, 0)
    os.chdir(HERE)
    children = used.ru_utime + used.ru_stime - own
    return Run(seconds, own, children, os.waitstatus_to_exitcode(status), output.read_text(errors="replace"))


def compiled(compiler, source, program, *flags):
    """Compiles a source to a program, and returns the program's path."""
    subprocess.run([*shlex.split(compiler), "-O2", *flags, "-o", str(program), str(source)], check=True)
    return program
