"""Encrypted objects, in hex parted by spaces; `N*HEX` stands for N times the bytes."""

DATA, KEY, SOURCE = "0a02aabb", "12026b31", "1a01cc"
NOTE, KIND = "22090a04612e696f120101", "2801"
REST = f"{DATA} {KEY} {SOURCE}"

OBJECTS = {
    "whole": f"{DATA} {KEY} {SOURCE} {NOTE} {KIND}",
    "out_of_order": f"2801 120178 {SOURCE} 30070a02aabb 12026b31",
    "out_of_order_cut": f"2801 120178 {SOURCE} 30070a02aabb 12026b",
    "type_0": f"{REST} 2800",
    "type_missing": REST,
    "type_twice": f"{REST} 2801 2800",
    "type_modulo": f"{REST} 288180808010",
    "type_of_ten_bytes": f"{REST} 2881808080808080808001",
    "data_twice": f"0a0199 {REST}",
    "source_twice": f"1a03010203 {REST}",
    "data_long_varint": f"0a8280808080808080 8000aabb {KEY} {SOURCE}",
    "key_long_varint": f"8a808080808080808000 02aabb {KEY} {SOURCE}",
    "key_id_foreign": f"{DATA} 12040a7ec3a9 {SOURCE}",
    "key_id_1024": f"{DATA} 128008 1024*6b {SOURCE}",
    "source_1024": f"{DATA} {KEY} 1a8008 1024*cc",
    # annotations
    "note_empty": f"{REST} 2200",
    "note_value_alone": f"{REST} 22031201ff",
    "note_key_alone": f"{REST} 22030a0161",
    "notes_sorted": f"{REST} 22060a016212010222060a0161120101 22080a02616212020304",
    "notes_of_one_key": f"{REST} 22060a0161120101 22070a016112020203",
    "note_key_twice": f"{REST} 22090a01620a0161120101",
    "note_first_key_not_utf8": f"{REST} 22090a01ff0a0161120101",
    "note_unknown_field": f"{REST} 22081a01ff0a01611200",
    "note_key_of_another_type": f"{REST} 220808070a0161120101",
    "note_key_foreign": f"{REST} 22080a04c3a90a7f1200",
    "notes_256": f"{REST} " + " ".join(f"22040a02{number:02x}{0x41:02x}" if number < 128 else f"22050a03{number - 128:02x}4142" for number in range(256)),
    "notes_of_32768": f"{REST} 22868002 0a0161 12ffff01 32767*00",
    # fields that are skipped
    "unknown_of_each_type": f"3001 39 8*00 4203aabbcc 4d00000000 {REST}",
    "known_of_other_types": f"0801 11 8*00 1d00000000 2001 2a0161 {REST}",
    "field_of_greatest_number": f"f8ffffff0f01 {REST}",
    # 5: no field
    "5_number_0": f"{REST} 0001",
    "5_number_above": f"{REST} 80808080 1001",
    "5_number_far_above": f"{REST} f8ffffffffffffffff01 01",
    "5_group": f"{REST} 0b 0c",
    "5_group_of_an_unknown": f"{REST} 33 34",
    "5_type_4": f"{REST} 0c",
    "5_type_6": f"{REST} 0e",
    "5_type_7": f"{REST} 0f",
    "5_varint_of_eleven": f"{REST} 28 8080808080 808080808000",
    "5_varint_tenth_2": f"{REST} 28 80808080 808080808002",
    "5_key_of_eleven": f"{REST} a8808080 80808080808000 01",
    "5_eight_bytes_cut": f"{REST} 39 7*00",
    "5_four_bytes_cut": f"{REST} 35 3*00",
    "5_length_above": f"{REST} 0a02aa",
    "5_length_far_above": f"{REST} 0affffffffffffffffff01",
    "5_in_a_note": f"{REST} 22030a0261",
    "5_in_a_note_group": f"{REST} 22010b",
    "5_in_a_note_before_11": f"{REST} 22050a01ff 0b0c",
    "5_before_11": f"{DATA} 0f 1201ff",
    # 11: no text
    "11_key_id": f"{DATA} 1202c328 {SOURCE}",
    "11_first_of_two_key_ids": f"1201ff {REST}",
    "11_surrogate": f"{DATA} 1203eda080 {SOURCE}",
    "11_overlong": f"{DATA} 1202c080 {SOURCE}",
    "11_above": f"{DATA} 1204f4908080 {SOURCE}",
    "11_cut_character": f"{DATA} 1202e282 {SOURCE}",
    "11_note_key": f"{REST} 22060a01ff120101",
    "11_before_5": f"{DATA} 1201ff 0f",
    "11_before_10": "1201ff",
    "value_not_utf8": f"{REST} 22060a01611201ff",
    "data_not_utf8": f"0a01ff {KEY} {SOURCE}",
    # the object's own limits, and their order
    "10_nothing": "",
    "10_data_missing": f"{KEY} {SOURCE}",
    "10_data_empty": f"0a00 {KEY} {SOURCE}",
    "10_data_empty_last": f"{REST} 0a00",
    "10_before_6": "2802",
    "6_key_id_missing": f"{DATA} {SOURCE}",
    "6_key_id_empty_last": f"{REST} 1200",
    "6_key_id_1025": f"{DATA} 128108 1025*6b {SOURCE}",
    "6_before_7": DATA,
    "7_source_missing": f"{DATA} {KEY}",
    "7_source_empty": f"{DATA} {KEY} 1a00",
    "7_source_1025": f"{DATA} {KEY} 1a8108 1025*cc",
    "7_before_8": f"{DATA} {KEY} 22868002 0a0162 12ffff01 32768*00".replace("868002", "878002").replace("ffff01", "808002"),
    "8_notes_257": f"{REST} " + " ".join(f"22050a03{number // 128:02x}{number % 128:02x}41" for number in range(257)),
    "8_notes_of_32769": f"{REST} 22878002 0a0161 12808002 32768*00",
    "8_before_9": f"{REST} 2802 22878002 0a0161 12808002 32768*00",
    "notes_257_of_one_key": f"{REST} 257*22030a0161",
    "9_type_2": f"{REST} 2802",
    "9_type_greatest": f"{REST} 28ffffffff0f",
    "9_type_negative": f"{REST} 28ffffffffffffffffff01",
}


def bytes_of(name):
    """The bytes of the object of that name."""
    data = b""
    for part in OBJECTS[name].split():
        times, star, digits = part.partition("*")
        data += bytes.fromhex(digits) * int(times) if star else bytes.fromhex(part)
    return data
