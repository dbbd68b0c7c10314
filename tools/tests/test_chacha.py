"""The random words: known blocks, and the places of words."""

from unittest import TestCase

from chordsim_tools.reference.chacha import CONSTANTS, Stream, block, key_words



class ChachaTest(TestCase):
    """Blocks and streams."""

    def test_block_of_twenty_rounds(self) -> None:
        """The example of RFC 8439, section 2.3.2."""
        key = [0x03020100 + 0x04040404 * i for i in range(8)]
        words = block([*CONSTANTS, *key, 1, 0x09000000, 0x4A000000, 0], 20)
        assert words[:4] == [0xE4E7F110, 0x15593BD1, 0x1FDD0F50, 0xC47120A3]
        assert words[12:] == [0xD19C12B5, 0xB94E16DE, 0xE883D0CB, 0x4E3C50A2]

    def test_first_words_of_the_zero_stream(self) -> None:
        """The published keystream of ChaCha8 for a key, counter and nonce of zeros begins with 3e00ef2f 895f40d6."""
        stream = Stream(0, 0)
        begin = b"".join(stream.word(place).to_bytes(4, "little") for place in range(4))
        assert begin.hex() == "3e00ef2f895f40d67f5bb8e81f09a5a1"

    def test_seed_is_the_head_of_the_key(self) -> None:
        """The lowest byte of the seed is the first of the key."""
        assert key_words(0x0102030405060708) == [0x05060708, 0x01020304, 0, 0, 0, 0, 0, 0]

    def test_place_names_block_and_word(self) -> None:
        """Words 16k to 16k + 15 are those of block k, in whatever order they are asked for."""
        stream = Stream(7, 3)
        second = block([*CONSTANTS, 7, 0, 0, 0, 0, 0, 0, 0, 1, 0, 3, 0], 8)
        assert [stream.word(16 + i) for i in range(16)] == second
        assert stream.word(0) == block([*CONSTANTS, 7, 0, 0, 0, 0, 0, 0, 0, 0, 0, 3, 0], 8)[0]
        assert stream.word(31) == second[15]
