"""Libraries that refuse one request of a program for memory, or each call of one of its two files from one call on.

A program of the desk takes its memory by `malloc` and `realloc` of the C library, and reads, writes, cuts and syncs its files by
`pread`, `pwrite`, `ftruncate`, `fsync` and `fdatasync`. Loaded before that, a library of these has ones that count, and that
refuse what the environment names. The kit's own compiler builds it.
"""

import os
import re
import shutil
import subprocess
from pathlib import Path

from common import log_of

HEAP = """
typedef __SIZE_TYPE__ size_t;
void *__libc_malloc(size_t);
void *__libc_realloc(void *, size_t);
char *getenv(const char *);
unsigned long strtoul(const char *, char **, int);
int dprintf(int, const char *, ...);

static unsigned long requests, refused;

__attribute__((constructor)) static void begin(void) {
    requests = 0;
    refused = strtoul(getenv("REFUSED"), 0, 10);
}

__attribute__((destructor)) static void end(void) { dprintf(2, "requests: %lu\\n", requests); }

void *malloc(size_t size) { return ++requests == refused ? 0 : __libc_malloc(size); }

void *realloc(void *block, size_t size) {
    return ++requests == refused ? 0 : __libc_realloc(block, size);
}
"""

# What a file held when it was synced last is in a second file, whose name ends in -synced.
FILES = """
typedef __SIZE_TYPE__ size_t;
typedef long ssize_t;
typedef long off_t;
char *getenv(const char *);
unsigned long strtoul(const char *, char **, int);
int dprintf(int, const char *, ...);
int snprintf(char *, size_t, const char *, ...);
int strcmp(const char *, const char *);
size_t strlen(const char *);
int strncmp(const char *, const char *, size_t);
ssize_t readlink(const char *, char *, size_t);
int open(const char *, int, ...);
int close(int);
ssize_t write(int, const void *, size_t);
long syscall(long, ...);
int *__errno_location(void);

enum { PREAD = 17, PWRITE = 18, FSYNC = 74, FDATASYNC = 75, FTRUNCATE = 77 };
enum { PATH = 4096, MADE_ANEW = 01 | 0100 | 01000, IO_ERROR = 5 };

static unsigned long calls, refused;

__attribute__((constructor)) static void begin(void) { refused = strtoul(getenv("REFUSED"), 0, 10); }

__attribute__((destructor)) static void end(void) { dprintf(2, "requests: %lu\\n", calls); }

static void name(int fd, char *path) {
    char link[64];
    snprintf(link, sizeof link, "/proc/self/fd/%d", fd);
    ssize_t length = readlink(link, path, PATH - 1);
    path[length < 0 ? 0 : length] = 0;
}

/* Whether a call of this file is refused; with 0 none is. */
static int refuses(int fd) {
    char path[PATH];
    name(fd, path);
    if (strcmp(path, getenv("REFUSED_FILE")) || ++calls < refused || !refused) return 0;
    *__errno_location() = IO_ERROR;
    return 1;
}

/* It holds from now on what it holds. */
static void keep(int fd) {
    char path[PATH], kept[PATH + 8], octets[65536];
    const char *desk = getenv("DESK_FILE");
    name(fd, path);
    if (strncmp(path, desk, strlen(desk))) return;
    snprintf(kept, sizeof kept, "%s-synced", path);
    int to = open(kept, MADE_ANEW, 0600);
    off_t at = 0;
    ssize_t count;
    while ((count = syscall(PREAD, fd, octets, sizeof octets, at)) > 0) {
        if (write(to, octets, count) != count) break;
        at += count;
    }
    close(to);
}

static int sync_by(long number, int fd) {
    if (refuses(fd)) return -1;
    int status = syscall(number, fd);
    if (!status) keep(fd);
    return status;
}

ssize_t pread(int fd, void *octets, size_t count, off_t at) {
    return refuses(fd) ? -1 : syscall(PREAD, fd, octets, count, at);
}

ssize_t pwrite(int fd, const void *octets, size_t count, off_t at) {
    return refuses(fd) ? -1 : syscall(PWRITE, fd, octets, count, at);
}

int ftruncate(int fd, off_t length) { return refuses(fd) ? -1 : syscall(FTRUNCATE, fd, length); }

int fsync(int fd) { return sync_by(FSYNC, fd); }

int fdatasync(int fd) { return sync_by(FDATASYNC, fd); }
"""

# the last line that either prints on standard error
REQUESTS = re.compile(r"^requests: (\d+)\n\Z", re.M)


def build(folder, name, text):
    page = subprocess.run(["rt", "doc"], check=True, capture_output=True, text=True)
    tools = Path(page.stdout.strip()).parent / "toolchain" / "bin"
    source, made, library = (folder / f"{name}.{end}" for end in ["c", "o", "so"])
    source.write_text(text)
    subprocess.run([tools / "clang", "-O1", "-fPIC", "-c", source, "-o", made], check=True)
    subprocess.run([tools / "ld.lld", "-shared", made, "-o", library], check=True)
    return library


def requests_of(told):
    """How many requests or calls there were, and what else was printed on standard error; no number where the program didn't end by itself."""
    found = REQUESTS.search(told)
    return (int(found[1]), told[: found.start()]) if found else (None, told)


class Memory:
    """One request for memory is refused."""

    name = "requests"
    # what is asked for after it isn't refused
    lasts = False
    # by how many requests what two commands do before their own may differ, for their words
    apart = 200

    def __init__(self, folder):
        self.library = build(folder, "heap", HEAP)

    def refusing(self, file, place):
        """The environment of a program whose request of this number is refused, or with 0 none."""
        return {**os.environ, "LD_PRELOAD": str(self.library), "REFUSED": str(place)}

    def ended(self, file, place):
        """What is done once the program has ended."""


class Calls:
    """The calls of one of a desk's two files are refused from one on. With `loses` the machine crashes too, and what wasn't synced is lost."""

    lasts = True
    # how many calls of an opening a command's own case has too, at most
    apart = 10

    def __init__(self, folder, of_log, loses):
        self.library = build(folder, "files", FILES)
        self.of_log, self.loses = of_log, loses
        self.name = f"calls of {'the log' if of_log else 'the file'}{', what was not synced lost,' if loses else ''}"

    def refusing(self, file, place):
        """The environment of a program whose calls from this number on are refused, or with 0 none."""
        file = Path(file).resolve()
        for path in [file, log_of(file)]:
            if path.exists():
                shutil.copy(path, synced(path))
        named = log_of(file) if self.of_log else file
        names = {"DESK_FILE": str(file), "REFUSED_FILE": str(named), "REFUSED": str(place)}
        return {**os.environ, **names, "LD_PRELOAD": str(self.library)}

    def ended(self, file, place):
        for path in [file, log_of(file)]:
            if self.loses and place and path.exists():
                path.write_bytes(synced(path).read_bytes() if synced(path).exists() else b"")
            synced(path).unlink(missing_ok=True)


def synced(path):
    return path.with_name(path.name + "-synced")
