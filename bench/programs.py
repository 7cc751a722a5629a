"""The programs of all sides, and their inputs: how they are built and written."""
import os, pathlib, subprocess

here = pathlib.Path(__file__).resolve().parent
root = here.parent
DEBIAN = pathlib.Path("/usr/share/cargo/registry")
PACKAGES = "indexmap stable-deref-trait dashmap parking-lot bumpalo hashbrown memchr libc typed-arena"
CORPORA = here / "target" / "corpora"
QUICK = here / "target" / "quick"

# 400,000 names of 48 bytes each, by `tools/program_checks names`: random ones, and names crafted against std's FoldHasher and
# against the program's SeededHasher.
FLOODS = {"random": "random", "fixed": "crafted against FoldHasher", "seeded": "crafted against SeededHasher"}
# The rows of a map with these names as keys: its hasher, the number of keys, and the families of names, of which the first
# is compared with the others. Against the default hasher, whose seed is fixed, only few crafted keys can be measured.
HASHERS = {"seeded": "`SeededState`", "default": "the default hasher"}
CRAFTED_KEYS = (
    ("seeded", 400_000, ("random", "fixed", "seeded")),
    ("default", 400_000, ("random", "seeded")),
    ("default", 10_000, ("random", "fixed")),
)
SIZES = (10_000, 100_000, 1_000_000, 10_000_000)


def crafted_name(hasher, count, family):
    """The name of the row of a map with this hasher and this many keys of a family."""
    return f"{HASHERS[hasher]}, {count:,} of 48 bytes, {FLOODS[family]}"


def installed(package, program):
    if not pathlib.Path(program).exists():
        subprocess.run(
            ["apt-get", "install", "-y", "-qq", package], stdout=subprocess.DEVNULL, stderr=subprocess.DEVNULL
        )
    return program


def build_peers(elsa, bindings=None):
    """Builds the programs of the other sides; with the calls from Rust too if the folder has the archive of elsa_c."""
    command = ["cargo", "build", "--release", "--quiet"]
    if bindings:
        os.environ["ELSA_LIB"] = str(bindings)
        command += ["--features", "peers/bindings"]
    if elsa:
        # cargo caps the lints of a registry's crates, and not of one in a folder
        os.environ["RUSTFLAGS"] = "--cap-lints=warn"
        command += ["--config", f'patch.crates-io.elsa.path="{pathlib.Path(elsa).resolve()}"']
    offline = [
        "--offline",
        "--config",
        'source.crates-io.replace-with="debian"',
        "--config",
        f'source.debian.directory="{DEBIAN}"',
    ]
    if subprocess.run(command, cwd=here, capture_output=True).returncode == 0:
        return
    wanted = " ".join(f"librust-{name}-dev" for name in PACKAGES.split())
    subprocess.run(
        f"apt-get update -qq && apt-get install -y -qq {wanted}",
        shell=True,
        stdout=subprocess.DEVNULL,
        stderr=subprocess.DEVNULL,
    )
    subprocess.run(command + offline, cwd=here, check=True)


def build_ours():
    subprocess.run([root / "prove", "program"], check=True)
    subprocess.run(
        ["rt", "run", "--", "copy", "1", "1"], cwd=root / "crates" / "elsa_bench", stdout=subprocess.DEVNULL, check=True
    )


def build_quickly(as_built):
    """Our two programs, built without their proofs; returns their files."""
    QUICK.mkdir(parents=True, exist_ok=True)
    for crate, words in [("elsa_cli", ["intern"]), ("elsa_bench", ["copy", "1", "1"])] if not as_built else []:
        subprocess.run([root / "tools" / "quick", crate, QUICK / crate, *words], stdout=subprocess.DEVNULL, check=True)
    return QUICK / "elsa_cli", QUICK / "elsa_bench"


ALL = ("zipf", "distinct", "words", "symbols", "long", *map(str, SIZES), *FLOODS, "empty")


def write_corpora(wanted=ALL):
    """Writes these inputs, unless an earlier run did."""
    lacking = [name for name in wanted if not (CORPORA / name).exists() and name not in (*FLOODS, "empty")]
    if lacking:
        subprocess.run([here / "corpora", CORPORA, *lacking], check=True)
    (CORPORA / "empty").write_bytes(b"")
    for name in [name for name in FLOODS if name in wanted]:
        if not (CORPORA / name).exists():
            made = subprocess.run([root / "tools" / "program_checks", "names", name, "400000"], capture_output=True, check=True)
            (CORPORA / name).write_bytes(made.stdout)
