"""What is looked for in the files of the Debian packages, of their source package and of the tarball, and what is wrong there."""

import fnmatch
import glob
import gzip
import os
import re
import subprocess
from email.utils import parsedate_to_datetime

from documents import PATH, words_of
from repository import TOP, found, read

# Of these lintian is not asked: the first finds words in the bytes of instructions, and so what is said of it comes and goes.
SUPPRESSED = "spelling-error-in-binary,unused-override"
ELF = b"\x7fELF"

# Instructions that only x86-64-v2 has, and those that are of a later level. The disassembler calls an old instruction tzcnt.
OF_V2 = re.compile(r"\t(popcnt|pshufb|palignr|ptest|pblendvb|pmov[sz]x\w+|pinsr[bdq]|pextr[bdq]|pcmpgtq)\b")
LATER = re.compile(r"\t(?:v\w+\s.*%[xyz]mm|(?:andn|bextr|blsi|blsr|blsmsk|bzhi|mulx|pdep|pext|rorx|sarx|shlx|shrx|lzcnt|movbe)"
                   r"\w?\s)")


def said(words, **how):
    return subprocess.run(words, check=True, capture_output=True, text=True, **how).stdout


def files(folder):
    """The regular files of a folder, by their paths in it."""
    for path, _, names in os.walk(folder):
        for name in sorted(names):
            whole = os.path.join(path, name)
            if os.path.isfile(whole) and not os.path.islink(whole):
                yield os.path.relpath(whole, folder)


def unpack(made, room):
    """The folder of each Debian package, with its control files in DEBIAN, by the package's name."""
    folders = {}
    os.makedirs(room, exist_ok=True)
    for path in sorted(glob.glob(os.path.join(made, "*.deb"))):
        name = os.path.basename(path).split("_")[0]
        folders[name] = os.path.join(room, name)
        said(["dpkg-deb", "-R", path, folders[name]])
    return folders


def lintian(made):
    """What lintian says of the packages, down to hints."""
    packages = [path for ending in ("deb", "dsc") for path in sorted(glob.glob(os.path.join(made, f"*.{ending}")))]
    words = ["lintian", "-I", "--pedantic", "--tag-display-limit", "0", "--suppress-tags", SUPPRESSED, *packages]
    done = subprocess.run(words, capture_output=True, text=True, env={**os.environ, "LC_ALL": "C.UTF-8"})
    told = done.stdout.splitlines()
    return told if told or done.returncode == 0 else [f"lintian: status {done.returncode}: {done.stderr[-500:]}"]


# EACH FILE

def disassembled(path):
    return said(["objdump", "-d", "--no-show-raw-insn", path])


def wrong_programs(folder):
    """Programs and libraries that have symbols which only a debugger reads, or instructions of a later level than x86-64-v2."""
    for name in files(folder):
        path = os.path.join(folder, name)
        with open(path, "rb") as data:
            is_elf = data.read(4) == ELF
        if is_elf and re.search(r" \.(symtab|debug_info) ", said(["readelf", "-SW", path])):
            yield f"{name} is not stripped"
        if is_elf and (later := LATER.search(disassembled(path))):
            yield f"{name} has {later[0].strip()!r}"


def wrong_symbols(folders, library):
    """What differs between the symbols file, what the library exports, and the calls of the header."""
    major = library.rpartition(".so.")[2].split(".")[0]
    control = read_all(os.path.join(folders[f"libbogzhami{major}"], "DEBIAN", "symbols"))
    listed = dict(re.findall(rf"^ (\w+)@BOGZHAMI_{major} (\S+)$", control, re.M))
    exported = set(re.findall(rf"\b(\w+)@@BOGZHAMI_{major}$", said(["nm", "-D", "--defined-only", library]), re.M))
    plain = re.sub(r"/\*.*?\*/|\nstatic inline .*?\n}", "", read("ffi/bogzhami.h"), flags=re.S)
    header = set(re.findall(r"\b(bogzhami_\w+)\([^;]*;", plain))
    exported.discard(f"BOGZHAMI_{major}")
    listed_calls = set(listed) - {f"BOGZHAMI_{major}"}
    wrong = [f"{name} is not in each" for name in sorted((listed_calls ^ exported) | (exported ^ header))]
    released = [version for version, _, _ in changes()]
    wrong += [f"{name} is of {version}" for name, version in listed.items() if version not in released]
    return wrong if exported and listed else ["no symbols"]


def read_all(path):
    with (gzip.open if path.endswith(".gz") else open)(path, "rt", encoding="utf-8") as text:
        return text.read()


# CHANGES

def changes():
    """The versions of CHANGELOG.md: number, date and words."""
    parts = re.split(r"^## (\S+), (\d{4}-\d\d-\d\d)$", read("CHANGELOG.md"), flags=re.M)[1:]
    return [(version, date, re.sub(r"^- ", "", text, flags=re.M).split()) for version, date, text in
            zip(parts[::3], parts[1::3], parts[2::3])]


def wrong_changelog(path, full):
    """How a Debian changelog differs from CHANGELOG.md, but for the version of a test build; and lines that are too long."""
    text = read_all(path)
    form = r"^bogzhami \((\S+)\) unstable; urgency=medium\n\n((?:  .*\n)+)\n -- [^<]+ <\S+>  (.*)$"
    told = [(version, parsedate_to_datetime(date).date().isoformat(), re.sub(r"^  \* ", "", words, flags=re.M).split())
            for version, words, date in re.findall(form, text, re.M)]
    wanted = [(full if number == 0 else version, date, words) for number, (version, date, words) in enumerate(changes())]
    long = [line for line in text.splitlines() if len(line) > 80 and not line.startswith(" -- ")]
    return long if told == wanted else [f"{os.path.basename(path)}: {told} and not {wanted}"]


# THE PLACE

def wrong_homepage(folders, tarball):
    """Files that have another address of the project than packaging/homepage."""
    homepage = read("packaging/homepage").strip()
    controls = [os.path.join(folder, "DEBIAN", "control") for folder in folders.values()]
    addresses = {path: re.findall(r"^Homepage: (\S+)$", read_all(path), re.M) for path in controls}
    pkg_config = os.path.join(tarball, "lib", "pkgconfig", "bogzhami.pc")
    addresses[pkg_config] = re.findall(r"^URL: (\S+)$", read_all(pkg_config), re.M)
    addresses["rust/Cargo.toml"] = re.findall(r'^repository = "(\S+)"$', read("rust/Cargo.toml"), re.M)
    return [f"{path}: {told}" for path, told in addresses.items() if told != [homepage]]


# DOCUMENTS

# Placeholders that a reader fills in, and what is made by commands of the documents.
NO_PATHS = re.compile(r"(.*/)?(FILE|LIST|NAME|PROGRAM)\b.*|/path/to/.*|(.*/)?(out|target)(/.*)?|CMakeLists.txt|/|"
                      r"bin/(list-c|list-rust|pieces-c|lint|highlight)")
KNOWN_ENDINGS = r"\.(antt|c|cc|h|html|md|png|py|rs|rt|toml|txt|yaml|gz|xz|pc|cmake)$"


def paths_of(text):
    """The words of a document that name files or folders; in the text of a manual page, those that have a slash."""
    for word in words_of(text):
        word = word.rstrip(",.:;")
        if PATH.fullmatch(word.lstrip("/")) and not NO_PATHS.fullmatch(word) and ("/" in word or re.search(KNOWN_ENDINGS, word)):
            yield word


def is_in(names, word, folder):
    """Whether one of these names has a path that is seen from the root or from a folder; a word without a slash may be anywhere."""
    plain = re.sub(r"^\./", "", word).rstrip("/").lstrip("/")
    near = os.path.normpath(os.path.join(folder, plain))
    every = [plain, near] if "/" in word else [plain, near, f"*/{plain}"]
    return any(fnmatch.filter(names, pattern) for pattern in every)


def with_folders(names):
    """The names, and those of the folders above them."""
    every = set()
    for name in names:
        while name and name not in every:
            every.add(name)
            name = os.path.dirname(name)
    return every


def every_name(folder):
    """The files, links and folders of a folder."""
    return with_folders(os.path.relpath(os.path.join(path, name), folder) for path, _, names in os.walk(folder) for name in names)


def wrong_paths(folder, others, sources, source_tarball):
    """Paths in the documents of an unpacked package that lead nowhere: not into it, not to a file that the other packages install,
    and not into the sources, to which a document has to say that it leads."""
    here = every_name(folder)
    installed = set().union(*map(every_name, others), here)
    for name in sorted(name for name in here if name.endswith(".md")):
        text, folders = read_all(os.path.join(folder, name)), [os.path.dirname(name), *homes(name)]
        for word in paths_of(text):
            near = [os.path.dirname(name), ""]
            if word.startswith("/") and is_in(installed, word, "") or any(is_in(here, word, place) for place in near):
                continue
            if not (source_tarball in text and any(is_in(sources, word, place) for place in folders)):
                yield f"{name}: {word}"


def homes(name):
    """Where a document of a package is in the repository."""
    return [os.path.dirname(path) for path in found(f"**/{os.path.basename(name)}")]


# THE SOURCE PACKAGE

def source_names(tarball):
    """The files and folders of the source package, by their paths in it."""
    names = said(["tar", "-tf", tarball]).splitlines()
    return with_folders(name.rstrip("/").partition("/")[2] for name in names) - {""}


def wrong_source(names):
    """Files of this checkout, of a commit or new, that the source package has not, and others that it has, but for debian/ and for
    files of git, which dpkg-source leaves out."""
    words = ["git", "-C", TOP, "ls-files", "-z", "--cached", "--others", "--exclude-standard"]
    wanted = {name for name in said(words).split("\0") if name and os.path.lexists(os.path.join(TOP, name))}
    wanted = with_folders(name for name in wanted if os.path.basename(name) != ".gitignore")
    return sorted(wanted ^ {name for name in names if not re.match("debian(/|$)", name)})


def unpack_source(made, folder):
    """Unpacks the source package of a folder by Debian's own tool."""
    said(["dpkg-source", "-x", *glob.glob(os.path.join(made, "*.dsc")), folder])
