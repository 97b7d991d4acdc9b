# Completions of alewife for bash: source this file. tools/words.py writes it.

_alewife() {
    local word=${COMP_WORDS[COMP_CWORD]} before=${COMP_WORDS[COMP_CWORD-1]} at=1 words=
    [ "${COMP_WORDS[1]}" = --unproved ] && at=2
    case $COMP_CWORD:$before in
    *:[\<\>]*) ;;
    "$at":*)
        words='asm run replay audit gen route save resume outcomes schedule time dis'
        if [ "$at" = 1 ]; then words="$words help --unproved --build --which --install --help --version"; else words="$words --which --install"; fi
        ;;
    *)
        case ${COMP_WORDS[at]}:$before in
        asm:asm) words='--write --help' ;;
        asm:--write) words='image listing' ;;
        asm:*) words='--write' ;;
        run:run) words='--seed --workers --evict --pointers --sets --limit --write --cycles --hit --switch --hop --send --data --home --fill --trap --inv --retry --help' ;;
        run:--pointers) words='1 2 3 4 5 6 7 8 all' ;;
        run:--sets) words='4 8 16 32 64 128 256 512 1024 2048 4096' ;;
        run:--write) words='report json trace claim summary log profile cycles moments' ;;
        run:--seed | run:--workers | run:--evict | run:--limit | run:--cycles | run:--hit | run:--switch | run:--hop | run:--send | run:--data | run:--home | run:--fill | run:--trap | run:--inv | run:--retry) compopt +o default ;;
        run:*) words='--seed --workers --evict --pointers --sets --limit --write --cycles --hit --switch --hop --send --data --home --fill --trap --inv --retry' ;;
        replay:replay) words='--write --help' ;;
        replay:--write) words='report json trace claim summary log profile' ;;
        replay:*) words='--write' ;;
        audit:audit) words='--write --help' ;;
        audit:--write) words='verdict log' ;;
        audit:*) words='--write' ;;
        gen:gen) words='--seed --width --height --size --help' ;;
        gen:--width) words='1 2 3 4 5 6 7 8 9 10 11 12 13 14 15 16' ;;
        gen:--height) words='1 2 3 4 5 6 7 8 9 10 11 12 13 14 15 16' ;;
        gen:--seed | gen:--size) compopt +o default ;;
        gen:*) words='--seed --width --height --size' ;;
        route:route) words='--seed --help' ;;
        route:--seed) compopt +o default ;;
        route:*) words='--seed' ;;
        save:save) words='--at --help' ;;
        save:--at) compopt +o default ;;
        save:*) words='--at' ;;
        resume:resume) words='--seed --evict --write --help' ;;
        resume:--write) words='report json trace claim summary log profile' ;;
        resume:--seed | resume:--evict) compopt +o default ;;
        resume:*) words='--seed --evict --write' ;;
        outcomes:outcomes) words='--most --help' ;;
        outcomes:--most) compopt +o default ;;
        outcomes:*) words='--most' ;;
        schedule:schedule) words='--pointers --sets --limit --help' ;;
        schedule:--pointers) words='1 2 3 4 5 6 7 8 all' ;;
        schedule:--sets) words='4 8 16 32 64 128 256 512 1024 2048 4096' ;;
        schedule:--limit) compopt +o default ;;
        schedule:*) words='--pointers --sets --limit' ;;
        time:time) words='--seed --hit --switch --hop --send --data --home --fill --trap --inv --retry --write --help' ;;
        time:--write) words='cycles moments' ;;
        time:--seed | time:--hit | time:--switch | time:--hop | time:--send | time:--data | time:--home | time:--fill | time:--trap | time:--inv | time:--retry) compopt +o default ;;
        time:*) words='--seed --hit --switch --hop --send --data --home --fill --trap --inv --retry --write' ;;
        dis:dis) words='--help' ;;
        esac
        ;;
    esac
    mapfile -t COMPREPLY < <(compgen -W "$words" -- "$word")
}

complete -o default -F _alewife alewife ./alewife
