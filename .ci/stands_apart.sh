#!/usr/bin/env bash
# What a crate must never stand on, as the map in docs/architecture.md says.
set -u
cd "$(dirname "$0")/.." || exit 1

status=0
stands_on() { sed -n "s/^$1:\(.*\)/\1 /p" crates.txt | grep -qE "(^| )$2 "; }
forbid() {
    local crate=$1 below
    shift
    for below; do
        if stands_on "$crate" "$below"; then
            echo "repository: $crate must not stand on $below" >&2
            status=1
        fi
    done
}

parsers='psm_parse_token psm_parse_expr psm_parse_stmt psm_parse_file'
readers="psm_token psm_spell psm_tree psm_print $parsers"
for crate in $readers psm_value psm_cond psm_exprcode psm_table psm_tablecode psm_store psm_undostore psm_query; do
    forbid "$crate" psm_io
done
for crate in $readers; do forbid "$crate" psm_value; done
for crate in psm_exprcode psm_table; do forbid "$crate" psm_tree; done
for crate in psm_tablecode psm_store psm_undostore psm_query; do forbid "$crate" psm_tree; done
forbid psm_tablecode psm_store
forbid psm_code psm_store psm_tree psm_resolved psm_io
for crate in psm_scope psm_rules psm_check_expr psm_symbols psm_check_stmt; do forbid "$crate" psm_io psm_exprcode psm_table; done
forbid psm_scope psm_tree
forbid psm_resolved psm_tree psm_scope psm_store
for crate in psm_resolve_expr psm_declare psm_resolve; do forbid "$crate" psm_io psm_check_stmt psm_store psm_meaning; done
forbid psm_declare psm_resolve psm_table
forbid psm_check_script psm_check_stmt psm_resolve psm_store psm_io
forbid psm_row_changes psm_exprcode psm_cond psm_tablecode psm_query psm_tree psm_io
forbid psm_dml psm_query psm_tree
forbid psm_checker_sound psm_codegen_wellformed psm_store psm_io
forbid psm_typing psm_tree psm_code psm_store psm_io
forbid psm_simulation psm_tree psm_scope psm_store psm_io
forbid psm_termination psm_tree psm_resolved psm_store psm_io
forbid psm_exprgen psm_tree psm_scope psm_store psm_io
forbid psm_codegen psm_tree psm_scope psm_store psm_io
forbid psm_codegen_wellformed psm_tree psm_scope psm_store psm_io
for crate in psm_verify_line psm_verify psm_object psm_load_line psm_load; do forbid $crate psm_tree psm_resolved psm_meaning psm_store psm_io; done
forbid psm_words psm_code psm_table psm_tree psm_io
forbid psm_cursor psm_code psm_tree psm_undostore psm_io
for crate in psm_unwind psm_machine; do forbid $crate psm_tree psm_resolved psm_meaning psm_undostore psm_io; done
forbid psm_cond psm_tree psm_table
forbid psm_machine psm_scope
forbid psm_session psm_tree psm_simulation psm_exprgen psm_codegen psm_undostore
forbid psm_wellformed psm_tree psm_scope psm_store psm_io
forbid psm_script_code psm_check_stmt psm_io psm_undostore
forbid psm_session_simulation psm_tree psm_scope psm_machine psm_io
forbid psm_code_session psm_store psm_undostore psm_io
forbid psm_faults psm_parse_file psm_resolve psm_exprgen psm_codegen psm_store psm_io
forbid psm_build psm_check_stmt psm_undostore psm_verify_line psm_verify
# shellcheck disable=SC2086
{
    # The program and its commands know arguments, files, stores and statuses: no token, value or tree, and none of the crates of
    # which a second checker, code generator or engine could be made.
    for crate in psm psm_commands; do
        forbid $crate psm_token psm_value psm_text psm_num psm_grammar psm_tree psm_resolved psm_machine $parsers
        forbid $crate psm_scope psm_rules psm_check_expr psm_symbols psm_check_stmt psm_check_script psm_resolve_expr psm_declare psm_resolve
        forbid $crate psm_exprgen psm_codegen psm_verify_line psm_verify psm_exprcode psm_tablecode psm_store psm_row_changes psm_query psm_dml psm_cursor psm_unwind psm_script_code
    done
    # A program without a compiler can stand on psm_files.
    forbid psm_files psm_build psm_token psm_grammar psm_tree psm_resolved $parsers
    forbid psm_files psm_scope psm_rules psm_check_expr psm_symbols psm_check_stmt psm_check_script psm_resolve_expr psm_declare psm_resolve
    forbid psm_files psm_checker_sound psm_exprgen psm_codegen psm_script_code
}
forbid psm_spell psm_grammar psm_tree
forbid psm_io psm_value

exit "$status"
