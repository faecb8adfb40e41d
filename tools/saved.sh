# Sourced by sheetdesk: answers a script on a desk in a file, or tells what the file holds (tools/history/saved.rs). Wants $top,
# $task, $desk and what tools/run.sh and tools/history.sh want.
. "$top/tools/history.sh" || exit 2

on_desk() {
  if [ "$task" = check ]; then
    [ ${#files[@]} -eq 0 ] && [ -z "$strict$echo$whole$json" ] || fail "--check takes a file and no other option; see --help"
    { : 3>&1; } 2>/dev/null || fail "there is no standard output"
  else
    ends
  fi
  mode=$task
  current_history
  # Alone it has the script and the answers in its own hands, and saves only if all were read and taken.
  [ -n "$strict$echo" ] || exec "$history_tool" "$task" "$desk"
  program=$history_tool
  given=(desk "$desk" -)
  . "$top/tools/run.sh" || exit 2
  run
}
