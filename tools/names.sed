# Gives the crates and types of version 0.2.0 their names of today, in a program in Rattle that uses them:
#   sed -i -f tools/names.sed crates.txt crates/*/src/*.rt crates/*/specs/*.antt crates/*/proofs/*.antt
# The header jg_functions.h keeps its name.
s/\bjg_threads\b/jg_table_threads/g
s/\bjg_locals\b/jg_table_locals/g
s/\bjg_globals\b/jg_table_globals/g
s/\bjg_monitors\b/jg_table_monitors/g
s/\bjg_buffers\b/jg_table_buffers/g
s/\bjg_heap\b/jg_table_heap/g
s/\bjg_objects\b/jg_table_objects/g
/jg_functions\.h/!s/\bjg_functions\b/jg_rows/g
s/\bjg_questions\b/jg_judge/g
s/\bjg_causes\b/jg_breaches/g
s/\bjg_entries\b/jg_entry_facts_laws/g
s/\bjg_facts\b/jg_entry_facts/g
s/\bjg_retelling\b/jg_journal_record/g
s/\bjg_telling\b/jg_denial_text/g
s/\bjg_faults\b/jg_fault_text/g
s/\bjg_counsel\b/jg_guard_advice/g
s/\bjg_caller\b/jg_guarded/g
s/\bjg_example\b/jg_example_guard/g
s/\bjg_own_machine\b/jg_example_core/g
s/\bjg_beside\b/jg_test_beside/g
s/\bjg_cases\b/jg_test_cases/g
s/\bjg_table_trials\b/jg_test_tables/g
s/\bjg_row_trials\b/jg_test_rows/g
s/\bjg_machine_trials\b/jg_test_machines/g
s/\bjg_play_trials\b/jg_test_plays/g
s/\bjg_explanation_trials\b/jg_test_explanations/g
s/\bCounsel\b/AdviceLog/g
s/\bCounselling\b/GuardAdviser/g
s/\bcounsel_journal\b/advise_on_journal/g
