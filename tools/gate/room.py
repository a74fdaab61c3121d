"""The calls of std that take room or let go of it, by the names that std of the kit gives them.

tools/gate/test_memory_answers sees that each call of std that answers want of memory is among them.
"""

# Those that make room for a length, or for whatever an iterator gives.
FOR_A_LENGTH = """
    collect extend extend_from_within extend_with_clones from_elem from_iter partition read_to_end read_to_string repeat
    reserve reserve_exact resize resize_with splice try_collect try_reserve try_reserve_exact try_resize_with unzip
    with_capacity with_capacity_and_hasher
"""
# Those that make room for what they are handed, or for a copy of it.
FOR_DATA = """
    add_extension append arg arg0 args canonicalize clone clone_from clone_from_slice cloned concat current_dir decode
    decode_vec downgrade drain emptied encode encode_string entry env env_remove envs extend_from_slice format from_array
    from_clones from_slice from_str from_string from_utf16 from_utf16_lossy from_utf8_lossy from_vec from_vec_unchecked
    get_or_try_init insert insert_mut insert_str into_owned join join_paths join_promised make_mut map_chunks map_indices
    map_vec or_default or_insert or_insert_with or_insert_with_key or_try_insert_with push push_back push_back_mut push_front
    push_front_mut push_mut push_str read_line read_link read_until remove_dir_all replace replace_range replacen
    set_extension set_file_name sort sort_by sort_by_cached_key sort_by_key sort_cached split_off to_ascii_lowercase
    to_ascii_uppercase to_lowercase to_mut to_owned to_path_buf to_string to_string_lossy to_uppercase to_vec try_clone
    try_from_fn try_map try_map_err try_ok_or_else try_take unwrap_or_clone wait_with_output with_added_extension
    with_extension with_file_name write write_all write_char write_fmt write_str write_vectored writeln
"""


def call_of(names: str) -> str:
    """The pattern of a call of one of these names, but for those that make a register of a slice, as `u8x16` does."""
    return rf"(?<!x\d\d::)\b(?:{'|'.join(names.split())})(?:::<[^(]*>)?\("
