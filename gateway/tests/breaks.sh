# The part `breaks` of gateway/try.sh: breaks the gateway, and checks that the rows or fuzz.py detect each break. gateway/try.sh
# sources this file.

# A line has the test, the break, and sed's edit of all files of nginx and of the gateway.
BREAKS='down root_says_yes_without_avroreg s/await reads.read(r, .\/config.);//
requests slash_stays s/~^(?<path_without_slash>/~^nothing(?<path_without_slash>/
requests slash_of_a_subject_is_a_slash s,proxy_pass  http://avroreg;,proxy_pass http://avroreg/;,
requests head_is_sent_as_head s/HEAD GET;/HEAD HEAD;/
requests minus_one_stays s/versions\/)-1(?/versions\/)-7(?/
requests minus_one_of_a_text_stays s/|\/-1\/schema|/|/
lists parameters_never_reach_the_gateway s/"$registry_action:$unsupported" $gateway_route/"$registry_action:" $gateway_route/
lists text_is_a_json_string s/return found.schema;/return JSON.stringify(found.schema);/
lists subjects_of_an_id_repeat s/names\[names.length - 1\] !== uses\[i\].subject/true/
lists pages_begin_at_one s/list.slice(offset, /list.slice(offset + 1, /
lists versions_of_an_id_have_no_pages s/JSON.stringify(target.page(uses))/JSON.stringify(uses)/
lists everything_is_unreferenced s/await reads.read(r, target.parts.slice(0, 5).*$//
lists no_context s/target.page(\[.\..\])/target.page([])/
lists prefix_is_found_anywhere s/name.startsWith(prefix)/name.indexOf(prefix) >= 0/
lists context_is_a_prefix s/without_context(target.text(.subjectPrefix.))/target.text("subjectPrefix")/
lists deleted_only_is_reversed s/return difference(all, live);/return difference(live, all);/
lists live_is_read_first s/const all = await reads.read(r, .\/subjects?deleted=true.);/const all = await reads.read(r, "\/subjects");/
lists deleted_versions_are_dropped s/const all = await reads.read(r, path + .?deleted=true.);/const all = await reads.read(r, path);/
lists names_are_not_escaped s/encodeURIComponent(name)/name/
lists offset_of_schemas_is_ignored s/page.to_skip--;/page.to_skip = 0;/
lists errors_are_hidden s/if (reply.status === 200) {/if (reply.status < 500) {/
checks verdict_is_always_yes s/if (compatible) {/if (true) {/
checks no_message_without_a_reason s/if (messages.length < 2) {/if (false) {/;s/.INCOMPATIBLE., description/"", description/
checks versions_are_not_named s/messages.push(.{oldSchemaVersion: . +.*$//
checks reader_and_writer_are_swapped s/of_direction(new_tree, old_tree/of_direction(old_tree, new_tree/
checks aliases_of_fields_are_ignored s/sources\[.f . + field.aliases\[i\]\]/undefined/
requests unknown_parameters_pass s/requested.allow_only(route.parameters);//
requests check_location_is_open /location = \/.registry\/check/,/}/s/internal;//
requests read_location_is_open /location = \/.registry\/read/,/}/s/internal;//
requests a_write_loses_its_target s/\$write_upstream\$registry_target/$write_upstream$uri/
requests rulesets_are_dropped s/metadata|ruleSet|/metadata|/
fuzz reads_have_the_body /proxy_pass_request_body off;/d;/Content-Length ""/d
fuzz passwords_reach_avroreg /location = \/.registry\/read/,/}/s/proxy_set_header  *Authorization  *"";//
fuzz writes_pass_as_checks s/^map "$registry_role:$registry_action:$is_own_subject" $is_refused {/map "" $is_refused {/;s/default  *1;$/default 0;/
fuzz names_are_decoded_once_more s/http:\/\/avroreg$args/http:\/\/avroreg$uri_of_args/;s/^map $args $read_id {/map $args $uri_of_args { volatile; "~^(?<a_path>[^%]*)%25(?<a_rest>.*)$" "$a_path%$a_rest"; default $args; }\n&/'

# run_break TEST NAME EDIT: runs a test with a broken gateway.
run_break() {
  case $1 in
    down) try_down "$2" "$3" ;;
    fuzz) run_fuzz "$2" "${MESSAGES_OF_BREAKS:-5000}" "$3" ;;
    lists) run_rows "$2" "$3" requests lists ;;
    *) run_rows "$2" "$3" "$1" ;;
  esac
}

# changes_nothing EDIT: whether the edit changes no file.
changes_nothing() {
  local file
  for file in "$here"/*.{conf,js} "$examples/nginx/avroreg.conf"; do
    cmp -s <(sed 's/#gateway //' "$file") <(sed "s/#gateway //; $1" "$file") || return 1
  done
}

try_breaks() {
  local test name edit count=0 missed=0
  while read -r test name edit; do
    [[ -z "${ONLY:-}" || " $ONLY " == *" $name "* ]] || continue
    count=$((count + 1))
    (started=(); trap 'kill "${started[@]}"' EXIT; run_break "$test" "$name" "$edit" >"$scratch/$name.out" 2>&1)
    if [ $? != 0 ] && grep -q "Error: \|^AssertionError\|^wrong:\|^try.sh: .* gets " "$scratch/$name.out" && ! changes_nothing "$edit"; then
      echo "detected: $name ($(grep -m1 -E 'Error: |^AssertionError|^wrong:|^try.sh:' "$scratch/$name.out" | cut -c1-90))"
    else
      echo "not detected by $test: $name: $(tail -n 1 "$scratch/$name.out")"
      missed=$((missed + 1))
    fi
  done <<<"$BREAKS"
  [ $missed = 0 ] || fail "$missed of $count broken gateways weren't detected"
  echo "$count broken gateways were detected"
}
