# Sourced at the top by bench and test, which have to agree on when a program is what its sources say.

# made_from: a sum over what the programs are made from, and over the kit
made_from() {
    {
        rt version
        find crates.txt crates -path 'crates/*/out' -prune -o -type f -exec cksum {} +
    } | LC_ALL=C sort | cksum
}

# key PROGRAM SUM: what is kept of a program that was proved and built from files of that sum
key() { echo "$2, $(cksum 2>/dev/null <"crates/$1/out/$1")"; }
