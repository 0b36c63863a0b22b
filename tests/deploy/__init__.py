"""Tests of `deploy/`: an office as it is run for real.

    OFFICE_PROGRAM=FILE python3 -m unittest tests.deploy.test_roles
    python3 -m unittest tests.deploy.test_roles -k each_role

Each test has a folder of its own, ports that are free and, where it needs one, an nginx of its own.
So suites run side by side. A test that needs nginx, Chromium, openssl or systemd-analyze is
skipped where that is missing. Clients and attackers are processes and threads of this machine, at
addresses of its own (127.0.0.0/8).

- The proxy and the reader: test_roles, test_bound_names, test_who_reads, test_passwords,
  test_names_alike, test_other_sites, test_requests, test_limits, test_readers, test_floods,
  test_hour, test_hours_at_random, test_offices, test_functions_of_the_reader,
  test_functions_of_division, test_given_passwords, test_words_of_the_hour, test_offices_away.
- The record of commands: test_record, test_recorder, test_replay, test_entries, test_history,
  test_acts_and_record, test_copy_and_record, test_known_setup, test_record_at_its_edges,
  test_two_of_the_board, test_files_in_turn, test_functions_of_the_recorder,
  test_functions_of_records, test_files_with_long_fields, test_numbers_that_no_office_has,
  test_entries_by_hand, test_replay_by_hand, test_changes_between_two_names, test_put_back,
  test_replay_over_others, test_replay_at_random, test_known_by_replay,
  test_returns_past_the_record, test_replay_of_unknown_answers, test_commands_without_an_answer.
- The machine: test_backup, test_room_for_copies, test_copies_elsewhere, test_services,
  test_ports_and_units, test_status, test_functions_of_status, test_what_status_prints,
  test_what_status_lacks, test_names_of_copies.
- An office on one computer: test_desk, test_desk_roles, test_functions_of_the_desk,
  test_parts_of_the_desk.
- The package and the sites of a computer: test_package, test_office_site, test_folders_of_others,
  for which root gets a machine of its own in memory; test_functions_of_the_package,
  test_functions_of_sites, test_changes_of_a_machine, test_sites_begun_again,
  test_restored_sites, test_interrupted_sites, test_folders_and_names_of_sites.
- Setups and the words of tools: test_setup_from_tables, test_setup_table_faults, test_large_setups,
  test_setups_as_saved, test_words_of_tools, test_files_of_tools, test_functions_of_tools,
  test_setup_table_limits, test_setup_limits, test_odd_rows_of_tables.
- The papers that a board signs: test_papers, test_papers_of_the_record, test_papers_of_an_evening,
  test_values_of_papers, test_papers_and_record.
- The press pages: test_press_pages, test_country_page, test_first_election, test_site_files,
  test_weights, test_country, test_templates, test_names, test_published_of_one_moment,
  test_another_column, test_first_screen, test_pages_of_an_evening, test_places, test_languages,
  test_functions_of_the_pages, test_settings_of_the_site, test_figures, test_sums_of_the_country,
  test_lines_under_the_title, test_parts_of_the_pages, test_answers_of_offices,
  test_files_of_the_pages, test_parts_of_the_country, test_rounds, test_sections_of_the_pages,
  test_ended_rounds. In a browser: test_shown_pages, test_renewed_pages, test_pictures.
- The published data: test_data, test_station_files, test_published, test_changed_files, test_feed,
  test_site_openapi, test_export, test_export_fields, test_data_in_process.
- The clerks' page: test_clerks_page, test_clerk_page, test_slips, test_typed_slips,
  test_keys_of_entries, test_second_entry, test_functions_of_the_page, test_acts_of_the_page,
  test_forms_of_the_page, test_requests_of_the_page.
- The audit: test_audit_rule, test_audit_commands, test_audit_at_its_limits.

These variables of the environment change a run:

- OFFICE_PICTURES=FOLDER leaves pictures of the pages there, to look at.
- OFFICE_STORE_PICTURES=1 stores the pictures of test_pictures again.
- COUNTRY_STATIONS=1154 makes the country of test_country one of 60,000 stations.
"""
