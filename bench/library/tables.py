#!/usr/bin/env python3
"""Prints a table by the library. Usage: tables.py DIR DEAL, DIR being a folder that ddfarm-library made."""
import ctypes
import sys

Deal, table = type("Deal", (ctypes.Structure,), {"_fields_": [("cards", ctypes.c_char * 80)]}), (ctypes.c_int * 20)()
code = ctypes.CDLL(f"{sys.argv[1]}/libdds.so.0").CalcDDtablePBN(Deal(sys.argv[2].encode()), table)
for number, strain in ((4, "NT"), (0, " S"), (1, " H"), (2, " D"), (3, " C")):
    print(strain, *(f"{seat} {table[4 * number + i]:2}" for i, seat in enumerate("NESW")), sep="  ")
sys.exit(code != 1)
