# From a script without a power-up to the records of its calls, in hexadecimal: kind 3 bits, address 16, zero 45; then the
# value. Of the 45 bits, 5 fill up the third byte and 40 are bytes of their own.
BEGIN { kind["l"] = 0; kind["s"] = 1; kind["c"] = 2; kind["a"] = 3; kind["e"] = 4 }
$1 in kind { printf "%06x%010x%016x\n", (kind[$1] * 2 ^ 16 + $2) * 2 ^ 5, 0, $3 }
