"""Pedigrees of a strain as networks, for `samples`. Every run makes the same ones.

An animal has one index, its genotype, of weight 2 (up to four genotypes). Founders come first, then one offspring a family. The tables:

  a founder:  its prior, over its genotype
  a family:   the offspring's genotype given the sire's and the dam's, over all three
  an animal:  what was observed of it, over its genotype

Even numbers are males, odd ones females. A sire is drawn from the youngest males, a dam from the youngest females, so mates are often related and the network
has cycles. The output is the genotype of the last animal. Each index stands in two tables or more: no network is refused 11."""
from file_cases import Draws
from network_file import Contents

GENOTYPE_BITS = 2
YOUNGEST = 6


def mate(draws, born, sex):
    """One of the youngest animals of a sex."""
    candidates = [animal for animal in range(born) if animal % 2 == sex][-YOUNGEST:]
    return candidates[draws.below(len(candidates))]


def strain(founders, families, seed):
    """The network of a strain with so many founders and families."""
    draws, animals = Draws(seed), founders + families
    leaves = [[founder] for founder in range(founders)]
    for offspring in range(founders, animals):
        leaves.append([offspring, mate(draws, offspring, 0), mate(draws, offspring, 1)])
    leaves += [[animal] for animal in range(animals)]
    return Contents([GENOTYPE_BITS] * animals, leaves, [animals - 1])
