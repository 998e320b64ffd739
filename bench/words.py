"""The words of a program of bench/."""
import argparse


def parser(doc):
    """What reads the words of a program, whose `--help` prints what the program says of itself."""
    return argparse.ArgumentParser(
        description=doc, formatter_class=argparse.RawDescriptionHelpFormatter
    )
