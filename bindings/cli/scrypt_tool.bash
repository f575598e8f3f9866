# Bash completions for scrypt_tool.
_scrypt_tool() {
  local word=${COMP_WORDS[COMP_CWORD]} first=1 choices=""
  # Bash treats an equals sign, and the text after it, as separate words.
  while [[ $first -lt $COMP_CWORD && ${COMP_WORDS[first]} == --* ]]; do
    [[ ${COMP_WORDS[first + 1]} == "=" ]] && first=$((first + 2))
    first=$((first + 1))
  done
  case $((COMP_CWORD - first + 1)):${COMP_WORDS[first]} in
    1:*)
      choices="key hash verify rehash --raw --progress --generate-salt --recommended --strip-newline
        --default-limits --help --version --max-mem= --max-work= --min-key-len= --hash-file="
      ;;
    2:hash | 2:rehash) choices="phc mcf" ;;
  esac
  COMPREPLY=($(compgen -W "$choices" -- "$word"))
}
complete -o default -F _scrypt_tool scrypt_tool
