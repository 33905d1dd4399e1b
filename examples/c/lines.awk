# From the bench program's transcript of a run to the lines that it loaded after its last accepted power-up, in
# hexadecimal. They are the first loads after it, as many as the variable lines says.
($1 == "n" || $1 == "p") && $2 == "ok" { loaded = 0 }
$1 == "l" && loaded < lines { line[loaded++] = $3 }
END { for (i = 0; i < loaded; i++) printf "%016x\n", line[i] }
