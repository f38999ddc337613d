# Completion of rohcfn in bash: `source` this file. Made by front/manual.py from front/commands.txt; change that, and make this anew.

# Offers the lines of standard input.
_rohcfn_offer() {
  local line
  while IFS= read -r line; do COMPREPLY+=("$line"); done
}

# Offers files. Where a word is quoted none is found here, and bash looks for them by itself. (Outside of a completion compopt has no effect.)
_rohcfn_files() {
  compopt -o filenames -o default 2>/dev/null
  _rohcfn_offer < <(compgen -f -- "$1")
}

# Whether a word before the cursor names the profile. Bash parts words at `=` and `:`.
_rohcfn_has_profile() {
  local at
  for ((at = 2; at < COMP_CWORD; at++)); do
    case ${COMP_WORDS[at]} in
      = | : | [\<\>]*) at=$((at + 1)) ;;
      --top | --robust | --not | --at-most | --lost | --item | --items | --packet | --packets | --from-context | --certificate | --events | \
        --octets | --pcap | --cut | --flow | -o)
        at=$((at + 1))
        if [[ ${COMP_WORDS[at]} == = ]]; then at=$((at + 1)); fi
        ;;
      - | [!-]*) return 0 ;;
    esac
  done
  return 1
}

_rohcfn() {
  if ((COMP_CWORD > 1)) && [[ ${COMP_WORDS[1]} == --as-built ]]; then
    COMP_WORDS=("${COMP_WORDS[0]}" "${COMP_WORDS[@]:2}") COMP_CWORD=$((COMP_CWORD - 1))
  fi
  local word=${COMP_WORDS[COMP_CWORD]} before=${COMP_WORDS[COMP_CWORD - 1]} options=''
  local commands='pack unpack fields why stats loss advise show lint draw check prove line help report lsp'
  COMPREPLY=()
  if [[ $before == = ]]; then before=${COMP_WORDS[COMP_CWORD - 2]}; fi
  case $word in
    =) word='' ;;
    : | [\<\>]*) before=$word word='' ;;
  esac
  if ((COMP_CWORD == 1)); then
    if [[ $word == -* ]]; then commands='--help --version --diagnose --as-built'; fi
    _rohcfn_offer < <(compgen -W "$commands" -- "$word")
    return
  fi
  case $before in
    [\<\>]* | --items | --packets | --from-context | --certificate | --events | --octets | --pcap | -o)
      _rohcfn_files "$word"
      return
      ;;
    : | --top | --robust | --not | --at-most | --lost | --item | --packet | --cut | --flow) return ;;
  esac
  case ${COMP_WORDS[1]} in
    pack)
      options='--top --v2 --context --robust --help --item --items --bare --from-context --certificate --pcap --cut --flow --diagnose'
      ;;
    unpack)
      options='--top --v2 --context --help --packet --packets --from-context --certificate --diagnose'
      ;;
    fields)
      options='--top --v2 --context --help --json --items --item --bare --packet --packets --from-context --certificate --pcap --cut --flow --diagnose'
      ;;
    why)
      options='--top --v2 --context --robust --help --json --items --not --item --bare --packet --packets --from-context --certificate --pcap --cut --flow
--diagnose'
      ;;
    stats)
      options='--top --v2 --robust --help --json --by-item --all --at-most --item --items --bare --from-context --certificate --pcap --cut --flow
--diagnose'
      ;;
    loss)
      options='--top --v2 --robust --help --json --lost --item --items --bare --from-context --certificate --pcap --cut --flow --diagnose'
      ;;
    advise)
      options='--top --v2 --help --json --lost --item --items --bare --from-context --certificate --pcap --cut --flow --diagnose'
      ;;
    show)
      options='--top --help --diagnose'
      ;;
    lint)
      options='--top --help --json --strict --from-context --diagnose'
      ;;
    draw)
      options='--top --help --json --diagnose'
      ;;
    check)
      options='--top --v2 --help --json --explain --certificate --diagnose'
      ;;
    prove)
      options='--top --v2 --help --json --explain --diagnose'
      ;;
    line)
      options='--top --v2 --robust --help --receive --wide --frames --certificate --events --octets --pcap --cut --diagnose'
      ;;
    report)
      options='-o --top --item --items --bare --pcap --cut --flow --from-context --certificate --v2 --lost --help'
      ;;
    help)
      if ((COMP_CWORD == 2)); then options=$commands; fi
      ;;
    *) return ;;
  esac
  if [[ ${COMP_WORDS[1]} == help || $word == -* ]] || _rohcfn_has_profile; then
    _rohcfn_offer < <(compgen -W "$options" -- "$word")
  else
    _rohcfn_files "$word"
  fi
}

complete -F _rohcfn rohcfn
