# Where the built programs stand, and whether one is of the sources as they are. Scripts that have set `root`, the top of the
# repository, read this file.

proved=$root/crates/gw_program/out/gw_program
unproved=$root/out/unproved/gateway

declare -A needs=()   # what each crate of crates.txt stands on
order=()              # the crates that the program stands on, each behind those below it, and its own last

read_crates() {
    local line name
    while read -r line; do
        [[ $line == *:* && $line != '#'* ]] || continue
        name=${line%%[: ]*}
        needs[$name]=${line#*:}
    done < "$root/crates.txt"
}

add_to_order() {
    local name=$1 low
    [[ " ${order[*]} " != *" $name "* ]] || return 0
    for low in ${needs[$name]}; do
        # A crate of the toolchain is built already.
        if [[ -v needs[$low] ]]; then add_to_order "$low"; fi
    done
    order+=("$name")
}

# What the toolchain that is here calls itself; nothing where there is none.
toolchain() {
    local rt file
    rt=$(command -v rt) || return
    file=$(dirname -- "$(readlink -f -- "$rt")")/../KIT-ID
    [[ ! -r $file ]] || printf '%s' "$(< "$file")"
}

# Whether a program stands that was built by this toolchain, and neither crates.txt nor a file of its crates is newer than it.
is_fresh() {
    local built=$1 kit
    [[ -f $built && -x $built && ! $root/crates.txt -nt $built ]] || return
    if [[ -r $built.toolchain ]]; then
        kit=$(toolchain)
        [[ -z $kit || $kit == "$(< "$built.toolchain")" ]] || return
    fi
    ((${#order[@]})) || { read_crates; add_to_order gw_program; }
    [[ -z $(cd -- "$root/crates" && find "${order[@]}" -mindepth 1 \
        \( -name out -o -name must-fail \) -prune -o -newer "$built" -print -quit) ]]
}
