# bash completion of felosumay, made by .ci/completions

# The UIDs of the newest list or survey in this folder, or in the file that FELOSUMAY_LIST names.
_felosumay_uids() {
    sh -c '{ if [ -n "${FELOSUMAY_LIST-}" ]; then printf "%s\n" "$FELOSUMAY_LIST"; else ls -t -- *.csv *.json; fi; } 2>/dev/null |
while IFS= read -r file; do
    if head -c 4096 -- "$file" | grep -qE "^uid,|\"uid\""; then grep -oE "[0-9A-F]{4}:[0-9A-F]{8}" -- "$file" | sort -u; break; fi
done 2>/dev/null'
}

# Those of these words that go on from the word.
_felosumay_among() {
    mapfile -t COMPREPLY < <(compgen -W "$1" -- "$word")
}

# The same of UIDs: several may stand in one word, with commas between. Words beside them stand for all.
_felosumay_devices() {
    local before=
    [[ $word != *,* ]] || { before=${word%,*}, && set --; }
    mapfile -t COMPREPLY < <(compgen -P "$before" -W "$(_felosumay_uids) $*" -- "${word#"$before"}")
}

# Files are completed by bash itself, which knows of quotes and of ~.
_felosumay_files() {
    compopt -o default
}

_felosumay() {
    local words=() given=() word piece key glued='' option=''
    # Bash splits words at : and =, which UIDs and options have.
    for piece in "${COMP_WORDS[@]:0:COMP_CWORD+1}"; do
        if [[ -n $glued || $piece == [:=]* ]]; then words[-1]+=$piece; else words+=("$piece"); fi
        glued=''
        [[ $piece != *[:=] ]] || glued=yes
    done
    # felosumay-line PORT is felosumay line --port PORT.
    [[ ${words[0]##*/} != felosumay-line ]] || words=(felosumay line --port "${words[@]:1}")
    word=${words[-1]}
    for piece in "${words[@]:1:${#words[@]}-2}"; do
        if [[ -n $option ]]; then
            option=''
            continue
        fi
        case $piece in
            --by | --chart | --collision | --count | --fixture | --format | --from | --gap | --junit | --limit | --names | --output | --port | --saved | --speed | --sub | --subs | --trace | --trace-as | --uid | -o) option=$piece ;;
            -*) ;;
            *) given+=("$piece") ;;
        esac
    done
    [[ $word != --*=* ]] || { option=${word%%=*} word=${word#*=}; }
    # The subcommand, and the command of one that has some.
    key=${given[0]:-} given=("${given[@]:1}")
    case $key:${given[0]:-} in
        line:find | line:list | line:address | line:get | line:set | line:identify | line:sensors | line:describe | line:status | line:collect | line:save | line:compare | line:restore | line:watch | line:play) key+=" ${given[0]}" given=("${given[@]:1}") ;;
    esac
    COMPREPLY=()
    if [[ -n $option ]]; then
        case $key:$option in
            'play:--fixture') _felosumay_files ;;
            'play:--chart') _felosumay_files ;;
            'play:--junit') _felosumay_files ;;
            'words:--fixture') _felosumay_files ;;
            'words:--format') _felosumay_among 'words pcapng' ;;
            'chart:-o' | 'chart:--output') _felosumay_files ;;
            'chart:--fixture') _felosumay_files ;;
            'check:--fixture') _felosumay_files ;;
            'parameters:--fixture') _felosumay_files ;;
            'test:--port') _felosumay_files ;;
            'test:--trace') _felosumay_files ;;
            'test:--from') _felosumay_devices ;;
            'test:--junit') _felosumay_files ;;
            'widget:--fixture') _felosumay_files ;;
            'widget:--collision') _felosumay_among 'all-bits first rubbish' ;;
            'widget:--saved') _felosumay_files ;;
            'line:--port') _felosumay_files ;;
            'line:--trace') _felosumay_files ;;
            'line:--trace-as') _felosumay_among 'trace pcapng' ;;
            'line:--fixture') _felosumay_files ;;
            'line find:--port') _felosumay_files ;;
            'line find:--trace') _felosumay_files ;;
            'line find:--trace-as') _felosumay_among 'trace pcapng' ;;
            'line find:--fixture') _felosumay_files ;;
            'line list:--by') _felosumay_among 'uid address model label' ;;
            'line list:--port') _felosumay_files ;;
            'line list:--format') _felosumay_among 'table csv json html' ;;
            'line list:--trace') _felosumay_files ;;
            'line list:--trace-as') _felosumay_among 'trace pcapng' ;;
            'line list:--fixture') _felosumay_files ;;
            'line address:--port') _felosumay_files ;;
            'line address:--by') _felosumay_among 'uid address model label' ;;
            'line address:--trace') _felosumay_files ;;
            'line address:--trace-as') _felosumay_among 'trace pcapng' ;;
            'line address:--fixture') _felosumay_files ;;
            'line get:--port') _felosumay_files ;;
            'line get:--format') _felosumay_among 'words plain' ;;
            'line get:--trace') _felosumay_files ;;
            'line get:--trace-as') _felosumay_among 'trace pcapng' ;;
            'line get:--fixture') _felosumay_files ;;
            'line set:--port') _felosumay_files ;;
            'line set:--from') _felosumay_files ;;
            'line set:--trace') _felosumay_files ;;
            'line set:--trace-as') _felosumay_among 'trace pcapng' ;;
            'line set:--fixture') _felosumay_files ;;
            'line identify:--port') _felosumay_files ;;
            'line identify:--trace') _felosumay_files ;;
            'line identify:--trace-as') _felosumay_among 'trace pcapng' ;;
            'line identify:--fixture') _felosumay_files ;;
            'line sensors:--port') _felosumay_files ;;
            'line sensors:--trace') _felosumay_files ;;
            'line sensors:--trace-as') _felosumay_among 'trace pcapng' ;;
            'line sensors:--fixture') _felosumay_files ;;
            'line describe:--port') _felosumay_files ;;
            'line describe:--trace') _felosumay_files ;;
            'line describe:--trace-as') _felosumay_among 'trace pcapng' ;;
            'line describe:--fixture') _felosumay_files ;;
            'line status:--port') _felosumay_files ;;
            'line status:--trace') _felosumay_files ;;
            'line status:--trace-as') _felosumay_among 'trace pcapng' ;;
            'line status:--fixture') _felosumay_files ;;
            'line collect:--port') _felosumay_files ;;
            'line collect:--trace') _felosumay_files ;;
            'line collect:--trace-as') _felosumay_among 'trace pcapng' ;;
            'line collect:--fixture') _felosumay_files ;;
            'line save:--port') _felosumay_files ;;
            'line save:--trace') _felosumay_files ;;
            'line save:--trace-as') _felosumay_among 'trace pcapng' ;;
            'line save:--fixture') _felosumay_files ;;
            'line compare:--port') _felosumay_files ;;
            'line compare:--trace') _felosumay_files ;;
            'line compare:--trace-as') _felosumay_among 'trace pcapng' ;;
            'line compare:--fixture') _felosumay_files ;;
            'line restore:--port') _felosumay_files ;;
            'line restore:--trace') _felosumay_files ;;
            'line restore:--trace-as') _felosumay_among 'trace pcapng' ;;
            'line restore:--fixture') _felosumay_files ;;
            'line watch:--port') _felosumay_files ;;
            'line watch:--trace') _felosumay_files ;;
            'line watch:--trace-as') _felosumay_among 'trace pcapng' ;;
            'line watch:--fixture') _felosumay_files ;;
            'line play:--port') _felosumay_files ;;
            'line play:--uid') _felosumay_devices ;;
            'line play:--from') _felosumay_devices ;;
            'line play:--trace') _felosumay_files ;;
            'line play:--junit') _felosumay_files ;;
            'line play:--trace-as') _felosumay_among 'trace pcapng' ;;
            'line play:--fixture') _felosumay_files ;;
        esac
    elif [[ $word == -* ]]; then
        case $key in
            'play') _felosumay_among '--fixture --words --chart --junit -h --help -V --version' ;;
            'words') _felosumay_among '--fixture --format -h --help -V --version' ;;
            'chart') _felosumay_among '-o --output --fixture -h --help -V --version' ;;
            'check') _felosumay_among '--fixture --subs --all -h --help -V --version' ;;
            'fixture') _felosumay_among '--names -h --help -V --version' ;;
            'parameters') _felosumay_among '--fixture -h --help -V --version' ;;
            'test') _felosumay_among '--port --limit --trace --from --junit -h --help -V --version' ;;
            'widget') _felosumay_among '--fixture --count --collision --subs --speed --saved -h --help -V --version' ;;
            'line') _felosumay_among '--port --limit --trace --trace-as --fixture -h --help -V --version' ;;
            'line find') _felosumay_among '--port --limit --trace --trace-as --fixture -h --help -V --version' ;;
            'line list') _felosumay_among '--by --port --format --limit --trace --trace-as --fixture -h --help -V --version' ;;
            'line address') _felosumay_among '--from --port --gap --limit --by --trace --trace-as --yes --fixture -h --help -V --version' ;;
            'line get') _felosumay_among '--port --sub --format --limit --trace --trace-as --fixture -h --help -V --version' ;;
            'line set') _felosumay_among '--port --sub --from --limit --trace --trace-as --fixture -h --help -V --version' ;;
            'line identify') _felosumay_among '--port --limit --trace --trace-as --fixture -h --help -V --version' ;;
            'line sensors') _felosumay_among '--port --limit --trace --trace-as --fixture -h --help -V --version' ;;
            'line describe') _felosumay_among '--port --limit --trace --trace-as --fixture -h --help -V --version' ;;
            'line status') _felosumay_among '--port --limit --trace --trace-as --fixture -h --help -V --version' ;;
            'line collect') _felosumay_among '--port --limit --trace --trace-as --fixture -h --help -V --version' ;;
            'line save') _felosumay_among '--port --limit --trace --trace-as --fixture -h --help -V --version' ;;
            'line compare') _felosumay_among '--port --limit --trace --trace-as --fixture -h --help -V --version' ;;
            'line restore') _felosumay_among '--port --yes --limit --trace --trace-as --fixture -h --help -V --version' ;;
            'line watch') _felosumay_among '--port --limit --trace --trace-as --fixture -h --help -V --version' ;;
            'line play') _felosumay_among '--port --uid --from --limit --trace --words --junit --trace-as --fixture -h --help -V --version' ;;
            '') _felosumay_among '-h --help -V --version' ;;
        esac
    else
        case $key:${#given[@]} in
            'play':0) _felosumay_files ;;
            'words':0) _felosumay_files ;;
            'chart':0) _felosumay_files ;;
            'check':0) _felosumay_files ;;
            'fixture':0) _felosumay_files ;;
            'parameters':0) _felosumay_among "$(sh -c 'felosumay parameters 2>/dev/null | cut -d, -f1 | cut -d" " -f2')" ;;
            'test':0) _felosumay_devices ;;
            'test':*) _felosumay_files ;;
            'line:0') _felosumay_among 'find list address get set identify sensors describe status collect save compare restore watch play' ;;
            'line get':0) _felosumay_devices all ;;
            'line get':1) _felosumay_among 'PROXIED_DEVICES PROXIED_DEVICE_COUNT COMMS_STATUS QUEUED_MESSAGE STATUS_MESSAGES STATUS_ID_DESCRIPTION CLEAR_STATUS_ID SUB_DEVICE_STATUS_REPORT_THRESHOLD SUPPORTED_PARAMETERS PARAMETER_DESCRIPTION DEVICE_INFO PRODUCT_DETAIL_ID_LIST DEVICE_MODEL_DESCRIPTION MANUFACTURER_LABEL DEVICE_LABEL FACTORY_DEFAULTS LANGUAGE_CAPABILITIES LANGUAGE SOFTWARE_VERSION_LABEL BOOT_SOFTWARE_VERSION_ID BOOT_SOFTWARE_VERSION_LABEL DMX_PERSONALITY DMX_PERSONALITY_DESCRIPTION DMX_START_ADDRESS SLOT_INFO SLOT_DESCRIPTION DEFAULT_SLOT_VALUE DMX_BLOCK_ADDRESS DMX_FAIL_MODE DMX_STARTUP_MODE SENSOR_DEFINITION SENSOR_VALUE RECORD_SENSORS DIMMER_INFO MINIMUM_LEVEL MAXIMUM_LEVEL CURVE CURVE_DESCRIPTION OUTPUT_RESPONSE_TIME OUTPUT_RESPONSE_TIME_DESCRIPTION MODULATION_FREQUENCY MODULATION_FREQUENCY_DESCRIPTION DEVICE_HOURS LAMP_HOURS LAMP_STRIKES LAMP_STATE LAMP_ON_MODE DEVICE_POWER_CYCLES BURN_IN DISPLAY_INVERT DISPLAY_LEVEL PAN_INVERT TILT_INVERT PAN_TILT_SWAP REAL_TIME_CLOCK LOCK_PIN LOCK_STATE LOCK_STATE_DESCRIPTION IDENTIFY_DEVICE RESET_DEVICE POWER_STATE PERFORM_SELFTEST SELF_TEST_DESCRIPTION CAPTURE_PRESET PRESET_PLAYBACK IDENTIFY_MODE PRESET_INFO PRESET_STATUS PRESET_MERGEMODE POWER_ON_SELF_TEST' ;;
            'line set':0) _felosumay_devices all ;;
            'line set':1) _felosumay_among 'PROXIED_DEVICES PROXIED_DEVICE_COUNT COMMS_STATUS QUEUED_MESSAGE STATUS_MESSAGES STATUS_ID_DESCRIPTION CLEAR_STATUS_ID SUB_DEVICE_STATUS_REPORT_THRESHOLD SUPPORTED_PARAMETERS PARAMETER_DESCRIPTION DEVICE_INFO PRODUCT_DETAIL_ID_LIST DEVICE_MODEL_DESCRIPTION MANUFACTURER_LABEL DEVICE_LABEL FACTORY_DEFAULTS LANGUAGE_CAPABILITIES LANGUAGE SOFTWARE_VERSION_LABEL BOOT_SOFTWARE_VERSION_ID BOOT_SOFTWARE_VERSION_LABEL DMX_PERSONALITY DMX_PERSONALITY_DESCRIPTION DMX_START_ADDRESS SLOT_INFO SLOT_DESCRIPTION DEFAULT_SLOT_VALUE DMX_BLOCK_ADDRESS DMX_FAIL_MODE DMX_STARTUP_MODE SENSOR_DEFINITION SENSOR_VALUE RECORD_SENSORS DIMMER_INFO MINIMUM_LEVEL MAXIMUM_LEVEL CURVE CURVE_DESCRIPTION OUTPUT_RESPONSE_TIME OUTPUT_RESPONSE_TIME_DESCRIPTION MODULATION_FREQUENCY MODULATION_FREQUENCY_DESCRIPTION DEVICE_HOURS LAMP_HOURS LAMP_STRIKES LAMP_STATE LAMP_ON_MODE DEVICE_POWER_CYCLES BURN_IN DISPLAY_INVERT DISPLAY_LEVEL PAN_INVERT TILT_INVERT PAN_TILT_SWAP REAL_TIME_CLOCK LOCK_PIN LOCK_STATE LOCK_STATE_DESCRIPTION IDENTIFY_DEVICE RESET_DEVICE POWER_STATE PERFORM_SELFTEST SELF_TEST_DESCRIPTION CAPTURE_PRESET PRESET_PLAYBACK IDENTIFY_MODE PRESET_INFO PRESET_STATUS PRESET_MERGEMODE POWER_ON_SELF_TEST' ;;
            'line identify':0) _felosumay_devices all ;;
            'line identify':1) _felosumay_among 'on off' ;;
            'line sensors':0) _felosumay_devices all ;;
            'line describe':0) _felosumay_devices ;;
            'line status':0) _felosumay_devices all ;;
            'line collect':0) _felosumay_devices all ;;
            'line save':0) _felosumay_files ;;
            'line compare':0) _felosumay_files ;;
            'line restore':0) _felosumay_files ;;
            'line play':0) _felosumay_files ;;
            ':0') _felosumay_among 'play words chart check fixture parameters test widget line help' ;;
            'help:0') _felosumay_among 'play words chart check fixture parameters test widget line' ;;
        esac
    fi
    # It puts what is left in the place of what comes behind the last : alone.
    [[ $word == "${COMP_WORDS[COMP_CWORD]}" || $word != *:* ]] || COMPREPLY=("${COMPREPLY[@]#"${word%"${word##*:}"}"}")
}
complete -F _felosumay felosumay felosumay-line
