# Bash completion of kmsrest, made by help/write.
_kmsrest() {
  local word=${COMP_WORDS[COMP_CWORD]} before=${COMP_WORDS[COMP_CWORD - 1]} options= files=
  if [ "$COMP_CWORD" = 1 ]; then
    mapfile -t COMPREPLY < <(compgen -W 'check encrypt decrypt inspect put get verify list judge plan rewrite migrate fleet watch gen help explain vet demo recover --help --version --draft --build' -- "$word")
    return
  fi
  if [ "${COMP_WORDS[1]}" = help ]; then
    mapfile -t COMPREPLY < <(compgen -W 'check encrypt decrypt inspect put get verify list judge plan rewrite migrate fleet watch gen help version demo draft build explain vet recover' -- "$word")
    return
  fi
  case $before in
    --as|--config|--file|--files|--from|--replica|--store|--to)
      mapfile -t COMPREPLY < <(compgen -f -- "$word")
      return
      ;;
    --allow)
      mapfile -t COMPREPLY < <(compgen -W 'drops-reader in-the-clear ignored-member moved-group kms-alpha two-entries base-otherwise unsealed endpoint-tab endpoint-host unstored unknown-resource placeholder-endpoint other-endpoint one-secret zero-secret text-secret example-secret identity-first aesgcm-writes readable-file' -- "$word")
      return
      ;;
    --output)
      mapfile -t COMPREPLY < <(compgen -W 'text json github' -- "$word")
      return
      ;;
    --resource)
      mapfile -t COMPREPLY < <(compgen -W 'secrets configmaps' -- "$word")
      return
      ;;
    --kubernetes|--limit|--path|--plugin|--reload|--replicas|--seed|--show|--since|--size) return ;;
  esac
  case ${COMP_WORDS[1]} in
    check) options='--config --resource' ;;
    encrypt) options='--config --resource --path --plugin' ;;
    decrypt) options='--config --resource --path --plugin' ;;
    put) options='--config --store --resource --path --plugin' ;;
    get) options='--config --store --path --plugin' ;;
    verify) options='--config --store --plugin' ;;
    list) options='--store' ;;
    judge) options='--store --replica --reload' ;;
    plan) options='--from --to --replicas --show --files' ;;
    rewrite) options='--config --store --plugin' ;;
    migrate) options='--config --store --to' ;;
    fleet) options='--file --store --plugin' ;;
    watch) options='--file --store --resource --limit --plugin --since' ;;
    gen) options='--seed --size --store' ;;
    vet) options='--help --replicas --kubernetes --output --strict --allow --as' files=1 ;;
  esac
  if [[ $files && $word != -* ]]; then
    mapfile -t COMPREPLY < <(compgen -f -- "$word")
    return
  fi
  mapfile -t COMPREPLY < <(compgen -W "$options" -- "$word")
}
complete -o filenames -F _kmsrest kmsrest ./kmsrest
