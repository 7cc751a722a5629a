"""The proofs of the libraries that a release ships: their digests in proofs.sha256, and how they are packed and
unpacked.

A proof from nothing by `rt ci` leaves for each library a folder NAME.rlib, with its interface, its specifications and
the statements of its proved functions. The same sources and the same toolchain make the same bytes on every machine. A
bundle is a folder with an archive NAME.tar.xz for each library. proofs.sha256 in this repository names what they must
contain:

    kit WHAT `rt version` PRINTS
    NAME STAMP DIGEST

STAMP is the toolchain's checksum of the library's sources, of its line of crates.txt and of all libraries below it.
DIGEST is a sha256 over the files of NAME.rlib. For the static library elsa_c, on which no crate depends, NAME.rlib has
its archive alone.
"""
import hashlib, lzma, pathlib, shutil, subprocess, tarfile, tempfile

from kit import toolchain
from repository import root, stands_on

DIGESTS = root / "proofs.sha256"
# The static library whose archive is shipped.
STATIC = "elsa_c"


class Rejected(Exception):
    """A library whose shipped proofs are not used; the message names it and the reason."""


def libraries():
    """The library's crates, each after those that it depends on."""
    return stands_on("elsa", "elsa_serde")


def kit_id():
    return subprocess.run(["rt", "version"], capture_output=True, text=True, check=True).stdout.strip()


def digest_of(folder):
    """A sha256 over the names and contents of all files below the folder."""
    sum = hashlib.sha256()
    for it in sorted(
        (it for it in folder.rglob("*") if it.is_file()), key=lambda it: it.relative_to(folder).as_posix()
    ):
        sum.update(f"{it.relative_to(folder).as_posix()}\0{it.stat().st_size}\0".encode())
        sum.update(it.read_bytes())
    return sum.hexdigest()


def static_archive(crates):
    """The archive of the static library. `rt lib` proves and builds it over the proofs that `rt ci` left in these crates of
    a copy of the repository, whose libraries it then takes as proved."""
    for name in stands_on(STATIC):
        if name != STATIC:
            pathlib.Path(crates[name].rlib).with_name("stamp").write_text(crates[name].stamp())
    folder = pathlib.Path(crates[STATIC].folder)
    done = subprocess.run(["rt", "lib"], cwd=folder, capture_output=True, text=True, errors="replace")
    if done.returncode:
        raise Rejected(f"rt lib does not prove {STATIC}. It printed:\n{done.stdout[-2000:]}{done.stderr[-1000:]}")
    return folder / "out" / f"lib{STATIC}.a"


def plain(entry):
    """An entry of an archive without owner and time, so that the same files make the same archive."""
    entry.uid = entry.gid = entry.mtime = 0
    entry.uname = entry.gname = ""
    return entry


def pack(folder, archive):
    """Packs the folder NAME.rlib."""
    with tarfile.open(archive, "w:xz", preset=4) as made:
        for it in sorted(folder.rglob("*"), key=lambda it: it.relative_to(folder).as_posix()):
            made.add(it, f"{folder.name}/{it.relative_to(folder).as_posix()}", recursive=False, filter=plain)


def unpack(archive, folder):
    """Unpacks an archive into this folder; raises Rejected if it has anything but files of NAME.rlib."""
    name = archive.name.removesuffix(".tar.xz")
    try:
        with tarfile.open(archive, "r:xz") as made:
            for it in made:
                parts = pathlib.PurePosixPath(it.name).parts
                if not (it.isfile() or it.isdir()) or parts[:1] != (f"{name}.rlib",) or ".." in parts:
                    raise Rejected(f"{name}: {archive} has an entry that doesn't belong to {name}.rlib: {it.name}")
                target = folder.joinpath(*parts)
                if it.isdir():
                    target.mkdir(parents=True, exist_ok=True)
                else:
                    target.parent.mkdir(parents=True, exist_ok=True)
                    with made.extractfile(it) as source, target.open("wb") as to:
                        shutil.copyfileobj(source, to)
    except (OSError, EOFError, tarfile.TarError, lzma.LZMAError) as error:
        raise Rejected(f"{name}: {archive} cannot be unpacked ({error}): fetch the bundle again") from None
    return folder / f"{name}.rlib"


def written(kit, rows):
    return f"kit {kit}\n" + "".join(f"{name} {stamp} {digest}\n" for name, (stamp, digest) in rows.items())


def known():
    """The kit's id, and (stamp, digest) of each library, from proofs.sha256."""
    if not DIGESTS.is_file():
        raise Rejected("proofs.sha256 is missing: this commit isn't a release, so no proofs are shipped for it")
    kit, *rows = DIGESTS.read_text().splitlines()
    return kit.removeprefix("kit "), {name: (stamp, digest) for name, stamp, digest in (it.split() for it in rows)}


def taken(bundle, names, crates, room):
    """Unpacks the proofs of these libraries into the folder `room`, and returns the folders NAME.rlib by library. Each
    must be made by this kit, from the sources of `crates` (the toolchain's crates by name), with the digests of
    proofs.sha256.
    """
    kit, rows = known()
    here, found = kit_id(), {}
    for name in names:
        if kit != here:
            raise Rejected(
                f"{name}: its proofs were made by {kit}, and this kit is {here}: use that kit, or leave out --proofs"
            )
        if name not in rows:
            raise Rejected(f"{name}: proofs.sha256 does not name it: leave out --proofs")
        stamp, digest = rows[name]
        if crates[name].stamp() != stamp:
            raise Rejected(
                f"{name}: its sources, or those of a library below it, are not the release's: check out the release, or leave out --proofs"
            )
        archive = bundle / f"{name}.tar.xz"
        if not archive.is_file():
            raise Rejected(f"{name}: {archive} is missing: fetch the bundle again")
        found[name] = unpack(archive, room)
        if digest_of(found[name]) != digest:
            raise Rejected(
                f"{name}: the files in {archive} are not those that proofs.sha256 names: fetch the bundle again"
            )
    return found


def install(bundle, target, names, verify):
    """Copies the release's proofs of these crates of the repository `target` to the folders in which the toolchain looks
    for them; none, if one of them is rejected. It prints what the user trusts, and the command `verify` that proves the
    crates again."""
    crates = {it.name: it for it in toolchain().rtlib.crates_below(str(target))}
    with tempfile.TemporaryDirectory(prefix="elsa-proofs-", dir=target) as room:
        found = taken(bundle, names, crates, pathlib.Path(room))
        for name, folder in found.items():
            made = pathlib.Path(crates[name].rlib).parent
            shutil.rmtree(made, ignore_errors=True)
            made.mkdir(parents=True)
            shutil.move(folder, made / folder.name)
            (made / "stamp").write_text(crates[name].stamp())
    print(f"The proofs of {len(names)} crates are taken from the release and are not checked here: you trust its")
    print(f"maker, as you trust the kit's own libraries. `{verify}` proves them again.")
