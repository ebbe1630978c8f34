"""Writes a network file, or a page that shows the network.

    ./arena-lab network torus:5x5 --out torus25.toml
    ./arena-lab network random:40:deg4:seed7 --ports shuffled:3
    ./arena-lab network petersen:5x2 --page petersen.html

A network must stay connected when any one node is taken away. The command refuses
another, and names the node. With --ports drawn, or shuffled:SEED, the ports of each
node are numbered anew, so that a label says nothing of where a link leads.
"""
import argparse
import pathlib
import secrets
import sys

from arena_lab.command_line.arguments import add_ports
from arena_lab.pages import network_page
from arena_lab.rules import draws, networks
from arena_lab.rules.networks import Network, NetworkError


def network_for(name: str, args: argparse.Namespace) -> Network:
    """The network of a word, with its ports as the words say."""
    network = networks.check_biconnected(name)
    return draws.renumber(network, draws.ports_seed(args.ports, secrets.SystemRandom()))


def add_arguments(parser: argparse.ArgumentParser) -> None:
    """Adds the arguments of `network`."""
    group = parser.add_argument_group("the network", networks.__doc__)
    group.add_argument("network", metavar="NAME", help="the network")
    add_ports(parser)
    parser.add_argument(
        "--out",
        metavar="FILE",
        type=pathlib.Path,
        help="write it there, and not to standard output",
    )
    parser.add_argument(
        "--page",
        metavar="FILE",
        type=pathlib.Path,
        help="write a page there on which one sees nodes "
        "and ports, and no network file but by --out",
    )


def run(args: argparse.Namespace) -> int:
    network = network_for(args.network, args)
    if args.page is not None:
        args.page.write_text(
            network_page.page_of(network, args.network), encoding="utf-8"
        )
        print(f"see it: {args.page}")
    if args.page is None or args.out is not None:
        return write_file(network, args)
    return 0


def write_file(network: Network, args: argparse.Namespace) -> int:
    """Writes the network file, or prints it."""
    text = f"# {args.network}\n{networks.text_of(network)}"
    if args.out is None:
        sys.stdout.write(text)
        return 0
    if args.out.exists():
        raise NetworkError(
            f"{args.out}: there is such a file; remove it, or name another by --out"
        )
    args.out.write_text(text, encoding="utf-8")
    degrees = network.degrees()
    print(
        f"{args.out}: {network.nodes} nodes, {len(network.links)} links, degrees {min(degrees)} to {max(degrees)}"
    )
    return 0
