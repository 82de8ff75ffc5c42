"""Where the proofs of a crate's functions stand. Read by the scripts beside it, from the top of the repository. For the older kit (README.md)."""
import pathlib
import sys

sys.dont_write_bytecode = True
sys.path.insert(0, str(pathlib.Path(__file__).resolve().parent.parent))
from rattle_source import HEAD, functions, without_comments


def folders(crate):
    """The folder below proofs/ of each function of a crate: its name, behind that of its module where it is not the first."""
    found = []
    for path in sorted(pathlib.Path('crates', crate, 'src').glob('*.rt')):
        module = '' if path.stem in ('lib', 'main') else path.stem + '/'
        found += [module + m['name'] for m in HEAD.finditer(without_comments(path.read_text()))]
    return found


def proof(crate, folder):
    """The proof file of a function."""
    return pathlib.Path('crates', crate, 'proofs', folder, 'Proof.antt')


def module(crate, folder):
    """The module that the toolchain makes for a function's proofs."""
    return f'Rattle·{crate}·proofs.proofs.' + folder.replace('/', '.')


def theorem(folder):
    """The name that a function's proof file must prove."""
    return folder.split('/')[-1].replace('_', '-') + '-spec'


def asking():
    """The functions of all crates that ask something of their callers, as steps name them."""
    return {f.name.replace('_', '-') for f in functions().values() if f.requires}
