# fish completion of felosumay, made by .ci/completions

# The words before the cursor that are neither options nor values of options. If a value is to come, the status is 1.
function __felosumay_given
    set -l is_value no
    for word in (commandline -opc)[2..-1]
        if test $is_value = yes
            set is_value no
            continue
        end
        switch $word
            case --by --chart --collision --count --fixture --format --from --gap --junit --limit --names --output --port --saved --speed --sub --subs --trace --trace-as --uid -o
                set is_value yes
            case '-*'
            case '*'
                echo $word
        end
    end
    test $is_value = no
end

# Whether the command line is at this subcommand, and, with a number, whether so many words stand behind it.
function __felosumay_at
    set -l given (__felosumay_given)
    or not set -q argv[2]
    or return 1
    set -l key $given[1]
    switch "$given[1] $given[2]"
        case 'line find' 'line list' 'line address' 'line get' 'line set' 'line identify' 'line sensors' 'line describe' 'line status' 'line collect' 'line save' 'line compare' 'line restore' 'line watch' 'line play'
            set key "$given[1] $given[2]"
    end
    test "$key" = "$argv[1]"; or return 1
    set -l behind (math (count $given) - (count (string split -n ' ' -- "$key")))
    not set -q argv[2]; or test $argv[2] = '*' -o "$argv[2]" = $behind
end

# The UIDs of the newest list or survey in this folder, or in the file that FELOSUMAY_LIST names; several may stand in one word, with commas
# between. Words beside them stand for all.
function __felosumay_devices
    set -l before (string match -r '.*,' -- (commandline -ct))
    test -n "$before"; or printf '%s\n' $argv
    sh -c '{ if [ -n "${FELOSUMAY_LIST-}" ]; then printf "%s\\n" "$FELOSUMAY_LIST"; else ls -t -- *.csv *.json; fi; } 2>/dev/null |
while IFS= read -r file; do
    if head -c 4096 -- "$file" | grep -qE "^uid,|\\"uid\\""; then grep -oE "[0-9A-F]{4}:[0-9A-F]{8}" -- "$file" | sort -u; break; fi
done 2>/dev/null' | string replace -r '^' -- "$before"
end

complete -c felosumay -f
complete -c felosumay -n '__felosumay_at "" 0' -a play -d 'Play a script on a fixture and print the trace'
complete -c felosumay -n '__felosumay_at "" 0' -a words -d 'Decode a trace, frames in hexadecimal digits or a capture'
complete -c felosumay -n '__felosumay_at "" 0' -a chart -d 'Draw a trace or a capture as a sequence chart in SVG'
complete -c felosumay -n '__felosumay_at "" 0' -a check -d 'Check the replies in a trace or a capture against the reply rules'
complete -c felosumay -n '__felosumay_at "" 0' -a fixture -d 'Check a fixture file and print what a controller will find'
complete -c felosumay -n '__felosumay_at "" 0' -a parameters -d 'List a fixture\'s parameters and the data that they accept'
complete -c felosumay -n '__felosumay_at "" 0' -a test -d 'Test a device on a line with scripts, such as those of suite/'
complete -c felosumay -n '__felosumay_at "" 0' -a widget -d 'Run virtual fixtures as an ENTTEC DMX USB Pro on stdin and stdout'
complete -c felosumay -n '__felosumay_at "" 0' -a line -d 'Control a real line through an ENTTEC DMX USB Pro'
complete -c felosumay -n '__felosumay_at ""' -s h -l help -d 'Print help'
complete -c felosumay -n '__felosumay_at ""' -s V -l version -d 'Print version'
complete -c felosumay -n '__felosumay_at "play" 0' -F
complete -c felosumay -n '__felosumay_at "play"' -l fixture -r -F -d 'The fixture to play it on; - for standard input, the demonstration fixture by default'
complete -c felosumay -n '__felosumay_at "play"' -l words -d 'Print the trace in words'
complete -c felosumay -n '__felosumay_at "play"' -l chart -r -F -d 'Also write a chart of the trace to this file; if -, print the chart instead of the trace'
complete -c felosumay -n '__felosumay_at "play"' -l junit -r -F -d 'Also write the results of expectations to this file, as JUnit XML; if -, print it instead of the trace'
complete -c felosumay -n '__felosumay_at "play"' -s h -l help -d 'Print help'
complete -c felosumay -n '__felosumay_at "play"' -s V -l version -d 'Print version'
complete -c felosumay -n '__felosumay_at "words" 0' -F
complete -c felosumay -n '__felosumay_at "words"' -l fixture -r -F -d 'The fixture for sensor units and status texts; standard input if -, none if omitted'
complete -c felosumay -n '__felosumay_at "words"' -l format -x -a 'words pcapng' -d 'The output format: words, or a capture of the frames; words by default'
complete -c felosumay -n '__felosumay_at "words"' -s h -l help -d 'Print help'
complete -c felosumay -n '__felosumay_at "words"' -s V -l version -d 'Print version'
complete -c felosumay -n '__felosumay_at "chart" 0' -F
complete -c felosumay -n '__felosumay_at "chart"' -s o -l output -r -F -d 'The file to write the chart to; standard output if omitted or -'
complete -c felosumay -n '__felosumay_at "chart"' -l fixture -r -F -d 'The fixture for sensor units and status texts; standard input if -, none if omitted'
complete -c felosumay -n '__felosumay_at "chart"' -s h -l help -d 'Print help'
complete -c felosumay -n '__felosumay_at "chart"' -s V -l version -d 'Print version'
complete -c felosumay -n '__felosumay_at "check" 0' -F
complete -c felosumay -n '__felosumay_at "check"' -l fixture -r -F -d 'The fixture that replied; - for standard input, the demonstration fixture by default'
complete -c felosumay -n '__felosumay_at "check"' -l subs -x -d 'The number of sub-devices; if omitted, all of the file\'s, or none without a file'
complete -c felosumay -n '__felosumay_at "check"' -l all -d 'Also print the replies that are right, and those that can\'t be judged'
complete -c felosumay -n '__felosumay_at "check"' -s h -l help -d 'Print help'
complete -c felosumay -n '__felosumay_at "check"' -s V -l version -d 'Print version'
complete -c felosumay -n '__felosumay_at "fixture" 0' -F
complete -c felosumay -n '__felosumay_at "fixture"' -l names -x -d 'Instead list the names that a fixture file can have for its sensors, units, prefixes, categories, slots or labels'
complete -c felosumay -n '__felosumay_at "fixture"' -s h -l help -d 'Print help'
complete -c felosumay -n '__felosumay_at "fixture"' -s V -l version -d 'Print version'
complete -c felosumay -n '__felosumay_at "parameters" 0' -a '(sh -c \'felosumay parameters 2>/dev/null | cut -d, -f1 | cut -d" " -f2\')'
complete -c felosumay -n '__felosumay_at "parameters"' -l fixture -r -F -d 'The fixture; standard input if -, the demonstration fixture if omitted'
complete -c felosumay -n '__felosumay_at "parameters"' -s h -l help -d 'Print help'
complete -c felosumay -n '__felosumay_at "parameters"' -s V -l version -d 'Print version'
complete -c felosumay -n '__felosumay_at "test" 0' -a '(__felosumay_devices)'
complete -c felosumay -n '__felosumay_at "test" \*' -F
complete -c felosumay -n '__felosumay_at "test"' -l port -r -F -d 'The serial device of the interface, in raw mode with min 0 time 1; - for standard input and output'
complete -c felosumay -n '__felosumay_at "test"' -l limit -x -d 'The time limit for each answer of the interface, in milliseconds; 1000 by default'
complete -c felosumay -n '__felosumay_at "test"' -l trace -r -F -d 'Also write requests and replies to this file, as a trace'
complete -c felosumay -n '__felosumay_at "test"' -l from -x -a '(__felosumay_devices)' -d 'The UID that sends; 7FF0:46454C4F if omitted'
complete -c felosumay -n '__felosumay_at "test"' -l junit -r -F -d 'Also write the results of expectations to this file, as JUnit XML; if -, print it instead of the report'
complete -c felosumay -n '__felosumay_at "test"' -s h -l help -d 'Print help'
complete -c felosumay -n '__felosumay_at "test"' -s V -l version -d 'Print version'
complete -c felosumay -n '__felosumay_at "widget"' -l fixture -r -F -d 'A fixture on the line, given once for each, or \'FILE*N\' for N of them; the demonstration fixture if omitted'
complete -c felosumay -n '__felosumay_at "widget"' -l count -x -d 'How many of each fixture without *N, with consecutive device IDs; 1 by default'
complete -c felosumay -n '__felosumay_at "widget"' -l collision -x -a 'all-bits first rubbish' -d 'The bytes on the line if several answer at once; all-bits by default'
complete -c felosumay -n '__felosumay_at "widget"' -l subs -x -d 'The number of sub-devices; if omitted, all of the file\'s, or none without a file'
complete -c felosumay -n '__felosumay_at "widget"' -l speed -x -d 'Run slow commands N times faster; 1 if omitted'
complete -c felosumay -n '__felosumay_at "widget"' -l saved -r -F -d 'Keep the fixture\'s values in this file across restarts'
complete -c felosumay -n '__felosumay_at "widget"' -s h -l help -d 'Print help'
complete -c felosumay -n '__felosumay_at "widget"' -s V -l version -d 'Print version'
complete -c felosumay -n '__felosumay_at "line" 0' -a find -d 'Find all devices'
complete -c felosumay -n '__felosumay_at "line" 0' -a list -d 'List all devices and their address clashes'
complete -c felosumay -n '__felosumay_at "line" 0' -a address -d 'Propose start addresses without overlaps, or set them'
complete -c felosumay -n '__felosumay_at "line" 0' -a get -d 'Read a parameter of devices'
complete -c felosumay -n '__felosumay_at "line" 0' -a set -d 'Set a parameter of devices, and wait for the result'
complete -c felosumay -n '__felosumay_at "line" 0' -a identify -d 'Make devices identify themselves, or stop that'
complete -c felosumay -n '__felosumay_at "line" 0' -a sensors -d 'List the sensors of devices and their readings'
complete -c felosumay -n '__felosumay_at "line" 0' -a describe -d 'Describe a device in a fixture\'s file, which stands in for it'
complete -c felosumay -n '__felosumay_at "line" 0' -a status -d 'List the status messages of devices'
complete -c felosumay -n '__felosumay_at "line" 0' -a collect -d 'Fetch all waiting messages of devices'
complete -c felosumay -n '__felosumay_at "line" 0' -a save -d 'Save a survey of all devices to a file'
complete -c felosumay -n '__felosumay_at "line" 0' -a compare -d 'Compare all devices with a saved survey'
complete -c felosumay -n '__felosumay_at "line" 0' -a restore -d 'Propose how to restore devices to a saved survey, or do it'
complete -c felosumay -n '__felosumay_at "line" 0' -a watch -d 'Poll all devices in turn, and print each message as it comes'
complete -c felosumay -n '__felosumay_at "line" 0' -a play -d 'Play a script on a device and print the trace, with the times'
complete -c felosumay -n '__felosumay_at "line"' -l port -r -F -d 'The serial device of the interface, in raw mode with min 0 time 1; - for standard input and output'
complete -c felosumay -n '__felosumay_at "line"' -l limit -x -d 'The time limit for each answer of the interface, in milliseconds; 1000 by default'
complete -c felosumay -n '__felosumay_at "line"' -l trace -r -F -d 'Also write requests and replies to this file, as a trace'
complete -c felosumay -n '__felosumay_at "line"' -l trace-as -x -a 'trace pcapng' -d 'The format of that file: a trace, or a capture of the frames; trace by default'
complete -c felosumay -n '__felosumay_at "line"' -l fixture -r -F -d 'A fixture file for units and texts; can be repeated. Without it, the devices are asked'
complete -c felosumay -n '__felosumay_at "line"' -s h -l help -d 'Print help'
complete -c felosumay -n '__felosumay_at "line"' -s V -l version -d 'Print version'
complete -c felosumay -n '__felosumay_at "line find"' -l port -r -F -d 'The serial device of the interface, in raw mode with min 0 time 1; - for standard input and output'
complete -c felosumay -n '__felosumay_at "line find"' -l limit -x -d 'The time limit for each answer of the interface, in milliseconds; 1000 by default'
complete -c felosumay -n '__felosumay_at "line find"' -l trace -r -F -d 'Also write requests and replies to this file, as a trace'
complete -c felosumay -n '__felosumay_at "line find"' -l trace-as -x -a 'trace pcapng' -d 'The format of that file: a trace, or a capture of the frames; trace by default'
complete -c felosumay -n '__felosumay_at "line find"' -l fixture -r -F -d 'A fixture file for units and texts; can be repeated. Without it, the devices are asked'
complete -c felosumay -n '__felosumay_at "line find"' -s h -l help -d 'Print help'
complete -c felosumay -n '__felosumay_at "line find"' -s V -l version -d 'Print version'
complete -c felosumay -n '__felosumay_at "line list"' -l by -x -a 'uid address model label' -d 'The sort order; uid by default'
complete -c felosumay -n '__felosumay_at "line list"' -l port -r -F -d 'The serial device of the interface, in raw mode with min 0 time 1; - for standard input and output'
complete -c felosumay -n '__felosumay_at "line list"' -l format -x -a 'table csv json html' -d 'The output format; table by default'
complete -c felosumay -n '__felosumay_at "line list"' -l limit -x -d 'The time limit for each answer of the interface, in milliseconds; 1000 by default'
complete -c felosumay -n '__felosumay_at "line list"' -l trace -r -F -d 'Also write requests and replies to this file, as a trace'
complete -c felosumay -n '__felosumay_at "line list"' -l trace-as -x -a 'trace pcapng' -d 'The format of that file: a trace, or a capture of the frames; trace by default'
complete -c felosumay -n '__felosumay_at "line list"' -l fixture -r -F -d 'A fixture file for units and texts; can be repeated. Without it, the devices are asked'
complete -c felosumay -n '__felosumay_at "line list"' -s h -l help -d 'Print help'
complete -c felosumay -n '__felosumay_at "line list"' -s V -l version -d 'Print version'
complete -c felosumay -n '__felosumay_at "line address"' -l from -x -d 'The first start address; 1 if omitted'
complete -c felosumay -n '__felosumay_at "line address"' -l port -r -F -d 'The serial device of the interface, in raw mode with min 0 time 1; - for standard input and output'
complete -c felosumay -n '__felosumay_at "line address"' -l gap -x -d 'The number of free slots between two devices; 0 by default'
complete -c felosumay -n '__felosumay_at "line address"' -l limit -x -d 'The time limit for each answer of the interface, in milliseconds; 1000 by default'
complete -c felosumay -n '__felosumay_at "line address"' -l by -x -a 'uid address model label' -d 'The sort order; uid by default'
complete -c felosumay -n '__felosumay_at "line address"' -l trace -r -F -d 'Also write requests and replies to this file, as a trace'
complete -c felosumay -n '__felosumay_at "line address"' -l trace-as -x -a 'trace pcapng' -d 'The format of that file: a trace, or a capture of the frames; trace by default'
complete -c felosumay -n '__felosumay_at "line address"' -l yes -d 'Make the proposed settings'
complete -c felosumay -n '__felosumay_at "line address"' -l fixture -r -F -d 'A fixture file for units and texts; can be repeated. Without it, the devices are asked'
complete -c felosumay -n '__felosumay_at "line address"' -s h -l help -d 'Print help'
complete -c felosumay -n '__felosumay_at "line address"' -s V -l version -d 'Print version'
complete -c felosumay -n '__felosumay_at "line get" 0' -a '(__felosumay_devices all)'
complete -c felosumay -n '__felosumay_at "line get" 1' -a 'PROXIED_DEVICES PROXIED_DEVICE_COUNT COMMS_STATUS QUEUED_MESSAGE STATUS_MESSAGES STATUS_ID_DESCRIPTION CLEAR_STATUS_ID SUB_DEVICE_STATUS_REPORT_THRESHOLD SUPPORTED_PARAMETERS PARAMETER_DESCRIPTION DEVICE_INFO PRODUCT_DETAIL_ID_LIST DEVICE_MODEL_DESCRIPTION MANUFACTURER_LABEL DEVICE_LABEL FACTORY_DEFAULTS LANGUAGE_CAPABILITIES LANGUAGE SOFTWARE_VERSION_LABEL BOOT_SOFTWARE_VERSION_ID BOOT_SOFTWARE_VERSION_LABEL DMX_PERSONALITY DMX_PERSONALITY_DESCRIPTION DMX_START_ADDRESS SLOT_INFO SLOT_DESCRIPTION DEFAULT_SLOT_VALUE DMX_BLOCK_ADDRESS DMX_FAIL_MODE DMX_STARTUP_MODE SENSOR_DEFINITION SENSOR_VALUE RECORD_SENSORS DIMMER_INFO MINIMUM_LEVEL MAXIMUM_LEVEL CURVE CURVE_DESCRIPTION OUTPUT_RESPONSE_TIME OUTPUT_RESPONSE_TIME_DESCRIPTION MODULATION_FREQUENCY MODULATION_FREQUENCY_DESCRIPTION DEVICE_HOURS LAMP_HOURS LAMP_STRIKES LAMP_STATE LAMP_ON_MODE DEVICE_POWER_CYCLES BURN_IN DISPLAY_INVERT DISPLAY_LEVEL PAN_INVERT TILT_INVERT PAN_TILT_SWAP REAL_TIME_CLOCK LOCK_PIN LOCK_STATE LOCK_STATE_DESCRIPTION IDENTIFY_DEVICE RESET_DEVICE POWER_STATE PERFORM_SELFTEST SELF_TEST_DESCRIPTION CAPTURE_PRESET PRESET_PLAYBACK IDENTIFY_MODE PRESET_INFO PRESET_STATUS PRESET_MERGEMODE POWER_ON_SELF_TEST'
complete -c felosumay -n '__felosumay_at "line get"' -l port -r -F -d 'The serial device of the interface, in raw mode with min 0 time 1; - for standard input and output'
complete -c felosumay -n '__felosumay_at "line get"' -l sub -x -d 'The sub-device, as in a script; the root if omitted'
complete -c felosumay -n '__felosumay_at "line get"' -l format -x -a 'words plain' -d 'How to print the reply: in words, or the value alone; words if omitted'
complete -c felosumay -n '__felosumay_at "line get"' -l limit -x -d 'The time limit for each answer of the interface, in milliseconds; 1000 by default'
complete -c felosumay -n '__felosumay_at "line get"' -l trace -r -F -d 'Also write requests and replies to this file, as a trace'
complete -c felosumay -n '__felosumay_at "line get"' -l trace-as -x -a 'trace pcapng' -d 'The format of that file: a trace, or a capture of the frames; trace by default'
complete -c felosumay -n '__felosumay_at "line get"' -l fixture -r -F -d 'A fixture file for units and texts; can be repeated. Without it, the devices are asked'
complete -c felosumay -n '__felosumay_at "line get"' -s h -l help -d 'Print help'
complete -c felosumay -n '__felosumay_at "line get"' -s V -l version -d 'Print version'
complete -c felosumay -n '__felosumay_at "line set" 0' -a '(__felosumay_devices all)'
complete -c felosumay -n '__felosumay_at "line set" 1' -a 'PROXIED_DEVICES PROXIED_DEVICE_COUNT COMMS_STATUS QUEUED_MESSAGE STATUS_MESSAGES STATUS_ID_DESCRIPTION CLEAR_STATUS_ID SUB_DEVICE_STATUS_REPORT_THRESHOLD SUPPORTED_PARAMETERS PARAMETER_DESCRIPTION DEVICE_INFO PRODUCT_DETAIL_ID_LIST DEVICE_MODEL_DESCRIPTION MANUFACTURER_LABEL DEVICE_LABEL FACTORY_DEFAULTS LANGUAGE_CAPABILITIES LANGUAGE SOFTWARE_VERSION_LABEL BOOT_SOFTWARE_VERSION_ID BOOT_SOFTWARE_VERSION_LABEL DMX_PERSONALITY DMX_PERSONALITY_DESCRIPTION DMX_START_ADDRESS SLOT_INFO SLOT_DESCRIPTION DEFAULT_SLOT_VALUE DMX_BLOCK_ADDRESS DMX_FAIL_MODE DMX_STARTUP_MODE SENSOR_DEFINITION SENSOR_VALUE RECORD_SENSORS DIMMER_INFO MINIMUM_LEVEL MAXIMUM_LEVEL CURVE CURVE_DESCRIPTION OUTPUT_RESPONSE_TIME OUTPUT_RESPONSE_TIME_DESCRIPTION MODULATION_FREQUENCY MODULATION_FREQUENCY_DESCRIPTION DEVICE_HOURS LAMP_HOURS LAMP_STRIKES LAMP_STATE LAMP_ON_MODE DEVICE_POWER_CYCLES BURN_IN DISPLAY_INVERT DISPLAY_LEVEL PAN_INVERT TILT_INVERT PAN_TILT_SWAP REAL_TIME_CLOCK LOCK_PIN LOCK_STATE LOCK_STATE_DESCRIPTION IDENTIFY_DEVICE RESET_DEVICE POWER_STATE PERFORM_SELFTEST SELF_TEST_DESCRIPTION CAPTURE_PRESET PRESET_PLAYBACK IDENTIFY_MODE PRESET_INFO PRESET_STATUS PRESET_MERGEMODE POWER_ON_SELF_TEST'
complete -c felosumay -n '__felosumay_at "line set"' -l port -r -F -d 'The serial device of the interface, in raw mode with min 0 time 1; - for standard input and output'
complete -c felosumay -n '__felosumay_at "line set"' -l sub -x -d 'The sub-device, as in a script; the root if omitted'
complete -c felosumay -n '__felosumay_at "line set"' -l from -r -F -d 'Make the settings of this file instead of a single one'
complete -c felosumay -n '__felosumay_at "line set"' -l limit -x -d 'The time limit for each answer of the interface, in milliseconds; 1000 by default'
complete -c felosumay -n '__felosumay_at "line set"' -l trace -r -F -d 'Also write requests and replies to this file, as a trace'
complete -c felosumay -n '__felosumay_at "line set"' -l trace-as -x -a 'trace pcapng' -d 'The format of that file: a trace, or a capture of the frames; trace by default'
complete -c felosumay -n '__felosumay_at "line set"' -l fixture -r -F -d 'A fixture file for units and texts; can be repeated. Without it, the devices are asked'
complete -c felosumay -n '__felosumay_at "line set"' -s h -l help -d 'Print help'
complete -c felosumay -n '__felosumay_at "line set"' -s V -l version -d 'Print version'
complete -c felosumay -n '__felosumay_at "line identify" 0' -a '(__felosumay_devices all)'
complete -c felosumay -n '__felosumay_at "line identify" 1' -a 'on off'
complete -c felosumay -n '__felosumay_at "line identify"' -l port -r -F -d 'The serial device of the interface, in raw mode with min 0 time 1; - for standard input and output'
complete -c felosumay -n '__felosumay_at "line identify"' -l limit -x -d 'The time limit for each answer of the interface, in milliseconds; 1000 by default'
complete -c felosumay -n '__felosumay_at "line identify"' -l trace -r -F -d 'Also write requests and replies to this file, as a trace'
complete -c felosumay -n '__felosumay_at "line identify"' -l trace-as -x -a 'trace pcapng' -d 'The format of that file: a trace, or a capture of the frames; trace by default'
complete -c felosumay -n '__felosumay_at "line identify"' -l fixture -r -F -d 'A fixture file for units and texts; can be repeated. Without it, the devices are asked'
complete -c felosumay -n '__felosumay_at "line identify"' -s h -l help -d 'Print help'
complete -c felosumay -n '__felosumay_at "line identify"' -s V -l version -d 'Print version'
complete -c felosumay -n '__felosumay_at "line sensors" 0' -a '(__felosumay_devices all)'
complete -c felosumay -n '__felosumay_at "line sensors"' -l port -r -F -d 'The serial device of the interface, in raw mode with min 0 time 1; - for standard input and output'
complete -c felosumay -n '__felosumay_at "line sensors"' -l limit -x -d 'The time limit for each answer of the interface, in milliseconds; 1000 by default'
complete -c felosumay -n '__felosumay_at "line sensors"' -l trace -r -F -d 'Also write requests and replies to this file, as a trace'
complete -c felosumay -n '__felosumay_at "line sensors"' -l trace-as -x -a 'trace pcapng' -d 'The format of that file: a trace, or a capture of the frames; trace by default'
complete -c felosumay -n '__felosumay_at "line sensors"' -l fixture -r -F -d 'A fixture file for units and texts; can be repeated. Without it, the devices are asked'
complete -c felosumay -n '__felosumay_at "line sensors"' -s h -l help -d 'Print help'
complete -c felosumay -n '__felosumay_at "line sensors"' -s V -l version -d 'Print version'
complete -c felosumay -n '__felosumay_at "line describe" 0' -a '(__felosumay_devices)'
complete -c felosumay -n '__felosumay_at "line describe"' -l port -r -F -d 'The serial device of the interface, in raw mode with min 0 time 1; - for standard input and output'
complete -c felosumay -n '__felosumay_at "line describe"' -l limit -x -d 'The time limit for each answer of the interface, in milliseconds; 1000 by default'
complete -c felosumay -n '__felosumay_at "line describe"' -l trace -r -F -d 'Also write requests and replies to this file, as a trace'
complete -c felosumay -n '__felosumay_at "line describe"' -l trace-as -x -a 'trace pcapng' -d 'The format of that file: a trace, or a capture of the frames; trace by default'
complete -c felosumay -n '__felosumay_at "line describe"' -l fixture -r -F -d 'A fixture file for units and texts; can be repeated. Without it, the devices are asked'
complete -c felosumay -n '__felosumay_at "line describe"' -s h -l help -d 'Print help'
complete -c felosumay -n '__felosumay_at "line describe"' -s V -l version -d 'Print version'
complete -c felosumay -n '__felosumay_at "line status" 0' -a '(__felosumay_devices all)'
complete -c felosumay -n '__felosumay_at "line status"' -l port -r -F -d 'The serial device of the interface, in raw mode with min 0 time 1; - for standard input and output'
complete -c felosumay -n '__felosumay_at "line status"' -l limit -x -d 'The time limit for each answer of the interface, in milliseconds; 1000 by default'
complete -c felosumay -n '__felosumay_at "line status"' -l trace -r -F -d 'Also write requests and replies to this file, as a trace'
complete -c felosumay -n '__felosumay_at "line status"' -l trace-as -x -a 'trace pcapng' -d 'The format of that file: a trace, or a capture of the frames; trace by default'
complete -c felosumay -n '__felosumay_at "line status"' -l fixture -r -F -d 'A fixture file for units and texts; can be repeated. Without it, the devices are asked'
complete -c felosumay -n '__felosumay_at "line status"' -s h -l help -d 'Print help'
complete -c felosumay -n '__felosumay_at "line status"' -s V -l version -d 'Print version'
complete -c felosumay -n '__felosumay_at "line collect" 0' -a '(__felosumay_devices all)'
complete -c felosumay -n '__felosumay_at "line collect"' -l port -r -F -d 'The serial device of the interface, in raw mode with min 0 time 1; - for standard input and output'
complete -c felosumay -n '__felosumay_at "line collect"' -l limit -x -d 'The time limit for each answer of the interface, in milliseconds; 1000 by default'
complete -c felosumay -n '__felosumay_at "line collect"' -l trace -r -F -d 'Also write requests and replies to this file, as a trace'
complete -c felosumay -n '__felosumay_at "line collect"' -l trace-as -x -a 'trace pcapng' -d 'The format of that file: a trace, or a capture of the frames; trace by default'
complete -c felosumay -n '__felosumay_at "line collect"' -l fixture -r -F -d 'A fixture file for units and texts; can be repeated. Without it, the devices are asked'
complete -c felosumay -n '__felosumay_at "line collect"' -s h -l help -d 'Print help'
complete -c felosumay -n '__felosumay_at "line collect"' -s V -l version -d 'Print version'
complete -c felosumay -n '__felosumay_at "line save" 0' -F
complete -c felosumay -n '__felosumay_at "line save"' -l port -r -F -d 'The serial device of the interface, in raw mode with min 0 time 1; - for standard input and output'
complete -c felosumay -n '__felosumay_at "line save"' -l limit -x -d 'The time limit for each answer of the interface, in milliseconds; 1000 by default'
complete -c felosumay -n '__felosumay_at "line save"' -l trace -r -F -d 'Also write requests and replies to this file, as a trace'
complete -c felosumay -n '__felosumay_at "line save"' -l trace-as -x -a 'trace pcapng' -d 'The format of that file: a trace, or a capture of the frames; trace by default'
complete -c felosumay -n '__felosumay_at "line save"' -l fixture -r -F -d 'A fixture file for units and texts; can be repeated. Without it, the devices are asked'
complete -c felosumay -n '__felosumay_at "line save"' -s h -l help -d 'Print help'
complete -c felosumay -n '__felosumay_at "line save"' -s V -l version -d 'Print version'
complete -c felosumay -n '__felosumay_at "line compare" 0' -F
complete -c felosumay -n '__felosumay_at "line compare"' -l port -r -F -d 'The serial device of the interface, in raw mode with min 0 time 1; - for standard input and output'
complete -c felosumay -n '__felosumay_at "line compare"' -l limit -x -d 'The time limit for each answer of the interface, in milliseconds; 1000 by default'
complete -c felosumay -n '__felosumay_at "line compare"' -l trace -r -F -d 'Also write requests and replies to this file, as a trace'
complete -c felosumay -n '__felosumay_at "line compare"' -l trace-as -x -a 'trace pcapng' -d 'The format of that file: a trace, or a capture of the frames; trace by default'
complete -c felosumay -n '__felosumay_at "line compare"' -l fixture -r -F -d 'A fixture file for units and texts; can be repeated. Without it, the devices are asked'
complete -c felosumay -n '__felosumay_at "line compare"' -s h -l help -d 'Print help'
complete -c felosumay -n '__felosumay_at "line compare"' -s V -l version -d 'Print version'
complete -c felosumay -n '__felosumay_at "line restore" 0' -F
complete -c felosumay -n '__felosumay_at "line restore"' -l port -r -F -d 'The serial device of the interface, in raw mode with min 0 time 1; - for standard input and output'
complete -c felosumay -n '__felosumay_at "line restore"' -l yes -d 'Make the proposed settings'
complete -c felosumay -n '__felosumay_at "line restore"' -l limit -x -d 'The time limit for each answer of the interface, in milliseconds; 1000 by default'
complete -c felosumay -n '__felosumay_at "line restore"' -l trace -r -F -d 'Also write requests and replies to this file, as a trace'
complete -c felosumay -n '__felosumay_at "line restore"' -l trace-as -x -a 'trace pcapng' -d 'The format of that file: a trace, or a capture of the frames; trace by default'
complete -c felosumay -n '__felosumay_at "line restore"' -l fixture -r -F -d 'A fixture file for units and texts; can be repeated. Without it, the devices are asked'
complete -c felosumay -n '__felosumay_at "line restore"' -s h -l help -d 'Print help'
complete -c felosumay -n '__felosumay_at "line restore"' -s V -l version -d 'Print version'
complete -c felosumay -n '__felosumay_at "line watch"' -l port -r -F -d 'The serial device of the interface, in raw mode with min 0 time 1; - for standard input and output'
complete -c felosumay -n '__felosumay_at "line watch"' -l limit -x -d 'The time limit for each answer of the interface, in milliseconds; 1000 by default'
complete -c felosumay -n '__felosumay_at "line watch"' -l trace -r -F -d 'Also write requests and replies to this file, as a trace'
complete -c felosumay -n '__felosumay_at "line watch"' -l trace-as -x -a 'trace pcapng' -d 'The format of that file: a trace, or a capture of the frames; trace by default'
complete -c felosumay -n '__felosumay_at "line watch"' -l fixture -r -F -d 'A fixture file for units and texts; can be repeated. Without it, the devices are asked'
complete -c felosumay -n '__felosumay_at "line watch"' -s h -l help -d 'Print help'
complete -c felosumay -n '__felosumay_at "line watch"' -s V -l version -d 'Print version'
complete -c felosumay -n '__felosumay_at "line play" 0' -F
complete -c felosumay -n '__felosumay_at "line play"' -l port -r -F -d 'The serial device of the interface, in raw mode with min 0 time 1; - for standard input and output'
complete -c felosumay -n '__felosumay_at "line play"' -l uid -x -a '(__felosumay_devices)' -d 'The device to play it on, as 7FF0:00000001'
complete -c felosumay -n '__felosumay_at "line play"' -l from -x -a '(__felosumay_devices)' -d 'The UID that sends; 7FF0:46454C4F if omitted'
complete -c felosumay -n '__felosumay_at "line play"' -l limit -x -d 'The time limit for each answer of the interface, in milliseconds; 1000 by default'
complete -c felosumay -n '__felosumay_at "line play"' -l trace -r -F -d 'Also write requests and replies to this file, as a trace'
complete -c felosumay -n '__felosumay_at "line play"' -l words -d 'Print the trace in words'
complete -c felosumay -n '__felosumay_at "line play"' -l junit -r -F -d 'Also write the results of expectations to this file, as JUnit XML; if -, print it instead of the trace'
complete -c felosumay -n '__felosumay_at "line play"' -l trace-as -x -a 'trace pcapng' -d 'The format of that file: a trace, or a capture of the frames; trace by default'
complete -c felosumay -n '__felosumay_at "line play"' -l fixture -r -F -d 'A fixture file for units and texts; can be repeated. Without it, the devices are asked'
complete -c felosumay -n '__felosumay_at "line play"' -s h -l help -d 'Print help'
complete -c felosumay -n '__felosumay_at "line play"' -s V -l version -d 'Print version'
complete -c felosumay -n '__felosumay_at "" 0' -a help -d 'Print the help of a subcommand'
complete -c felosumay -n '__felosumay_at help 0' -a 'play words chart check fixture parameters test widget line'
