"""crates.txt read: the crates by layers, the lowest first."""
import pathlib
from dataclasses import dataclass, field

TOP = pathlib.Path(__file__).resolve().parents[2]
PROOFS = '# for its proofs alone: '


@dataclass
class Crate:
    """A crate: its layer, what it is for, the libraries that it lists, and those that its comment
    gives to its proofs.
    """

    name: str
    layer: str
    purpose: str
    libraries: list = field(default_factory=list)
    for_proofs: list = field(default_factory=list)


def crates_and_layers(text):
    """The crates in their order by name, and what each layer is for by its name."""
    crates, layers, layer, remarks = {}, {}, '', []
    for line in text.splitlines():
        if line.startswith('## '):
            layer, _, layers[line[3:].partition(':')[0]] = line[3:].partition(': ')
            remarks = []
        elif line.startswith('#'):
            remarks.append(line)
        elif ':' in line:
            name, _, libraries = line.partition(':')
            for_proofs = [it[len(PROOFS) :].split() for it in remarks if it.startswith(PROOFS)]
            purpose = ' '.join(it[2:] for it in remarks if not it.startswith(PROOFS))
            crates[name] = Crate(name, layer, purpose, libraries.split(), sum(for_proofs, []))
            remarks = []
        else:
            remarks = remarks if line.strip() else []
    return crates, layers


def read():
    """The crates of this repository by name, and its layers."""
    return crates_and_layers((TOP / 'crates.txt').read_text())


def longest_chain(crates):
    """The longest chain of crates, each of which uses the one before."""
    chains = {}
    for crate in crates.values():
        below = [chains[it] for it in crate.libraries if it in chains]
        chains[crate.name] = max(below, key=len, default=[]) + [crate.name]
    return max(chains.values(), key=len)
