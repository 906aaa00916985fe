#!/usr/bin/env python3
"""Writes a netlist of one part `p`: a chain of loops that ends in a Continue, as a compiler would write it.

    bench/chain.py 200000 52428800 > big.txt
    breezesim list --part p < big.txt

The first number is that of the components, the second about how many bytes the text is to have.
"""
import sys


def main():
    count = int(sys.argv[1])
    size = int(sys.argv[2])
    out = sys.stdout
    out.write('(import "[balsa.types.basic]")\n(breeze-part "p"\n (ports (sync-port "activate" passive (at 1 1 "chain.balsa" 0)))\n')
    out.write(" (attributes (is-procedure) (line-count %d))\n (channels\n" % count)
    written = 0
    for k in range(1, count + 1):
        written += out.write('  (sync (at %d 3 "chain.balsa" 0) (name "link%d")) ; %d\n' % (k, k, k))
    out.write(" )\n (components\n")
    share = (size - written) // count
    for k in range(1, count + 1):
        kind, ends = ("Loop", "%d %d" % (k, k + 1)) if k < count else ("Continue", "%d" % k)
        place = ' (at %d 5 "chain.balsa" 0)' % k
        line = '  (component "$Brz%s" () (%s)' % (kind, ends)
        out.write(line + place * max(1, (share - len(line)) // len(place)) + ") ; %d\n" % k)
    out.write(" )\n (call-contexts))\n")


main()
