"""Random numbers, distributions, and how quantities are written."""

from decimal import Decimal
from random import Random
from unittest import TestCase
from unittest.mock import patch

from chordsim_tools.draws import Draws, Exponential, Keys, Pareto, Uniform, Zipf, distribution_of, weight, zipf_of
from chordsim_tools.quantities import span_of, time_of, time_text

COUNT = 10_000


class DrawsTest(TestCase):
    """Random numbers, the laws of lives and keys, and how times are written."""

    def test_times(self) -> None:
        """The four units, plain microseconds, and parts of a unit that are whole microseconds."""
        assert [time_of(text) for text in ("250us", "20ms", "1s", "10m")] == [250, 20_000, 10**6, 6 * 10**8]
        assert [time_of(text) for text in ("77", "0")] == [77, 0]
        assert time_of("1.5s") == 1_500_000
        assert time_of("0.25ms") == 250
        wrong = ("", "s", "1.5us", "0.0001ms", "-1s", "+1s", "1 s", "1e3", "1w", "1H", ".5s", "1.s", "1s\n", "\u0661s")
        for text in wrong:
            assert time_of(text) is None, text

    def test_spans(self) -> None:
        """Two times, the second one not below the first."""
        assert span_of("20ms..1s") == (20_000, 1_000_000)
        assert span_of("1.5s..1.5s") == (1_500_000, 1_500_000)
        for text in ("1s", "2s..1s", "1s..", "..1s", "1s..2s..3s", "1s...2s", "1s 2s"):
            assert span_of(text) is None, text

    def test_texts_of_times(self) -> None:
        """The greatest unit that fits."""
        times = [time_text(micros) for micros in (0, 1, 1500, 20_000, 10**9)]
        assert times == ["0us", "1us", "1500us", "20ms", "1000s"]

    def test_words_are_those_of_python(self) -> None:
        """The first words of a seed are the leading 53 bits that Random.random makes."""
        draws, random = Draws(7), Random(7)
        assert [draws.word() / 2**53 for _ in range(5)] == [random.random() for _ in range(5)]

    def test_numbers_reach_both_ends(self) -> None:
        """All values of a small range come, and no other."""
        draws = Draws(1)
        assert {draws.between(3, 6) for _ in range(200)} == {3, 4, 5, 6}
        assert {draws.key(3) for _ in range(400)} == set(range(8))
        assert max(draws.key(64) for _ in range(200)) >= 2**63

    def test_exponential(self) -> None:
        """At least 1, and the mean within 3%; a share of 1/e is above the mean."""
        draws, law = Draws(2), Exponential(60_000)
        times = [law.draw(draws) for _ in range(COUNT)]
        assert min(times) >= 1
        assert abs(sum(times) / COUNT / 60_000 - 1) < 0.03
        assert abs(len([time for time in times if time > 60_000]) / COUNT - 0.3679) < 0.015
        assert {Exponential(1).draw(draws) for _ in range(200)} >= {1, 2}

    def test_pareto(self) -> None:
        """Never below the least; with alpha 3 the mean is 1.5 times it, within 3%, and an eighth is above twice it."""
        draws, law = Draws(3), Pareto(Decimal(3), 20_000)
        times = [law.draw(draws) for _ in range(COUNT)]
        assert min(times) >= 20_000
        assert abs(sum(times) / COUNT / 30_000 - 1) < 0.03
        assert abs(len([time for time in times if time > 40_000]) / COUNT - 0.125) < 0.01
        assert Pareto(Decimal("0.1"), 10**12).draw(draws) >= 10**12

    def test_uniform(self) -> None:
        """Within the span, with the mean in its middle within 1%, and a tenth in its first tenth."""
        draws, law = Draws(4), Uniform(5_000, 14_999)
        times = [law.draw(draws) for _ in range(COUNT)]
        assert 5_000 <= min(times) and max(times) <= 14_999
        assert abs(sum(times) / COUNT / 9_999.5 - 1) < 0.01
        assert abs(len([time for time in times if time < 6_000]) / COUNT - 0.1) < 0.01

    def test_waiting_times_by_hand(self) -> None:
        """The words 0, 2^52 - 1 and 2^53 - 1 stand for the probabilities 2^-53, 1/2 and 1."""
        draws = Draws(0)
        words = iter((0, 2**52 - 1, 2**53 - 1))
        with patch.object(draws, "word", lambda: next(words)):
            # 53 ln 2 = 36.7368..., ln 2 = 0.693147..., and 0, which is rounded up to 1.
            assert [Exponential(10_000).draw(draws) for _ in range(3)] == [367_369, 6_932, 1]

    def test_distributions_as_written(self) -> None:
        """The three forms, and what is none."""
        assert distribution_of("exp:60s") == Exponential(60_000_000)
        assert distribution_of("pareto:1.5:20ms") == Pareto(Decimal("1.5"), 20_000)
        assert distribution_of("uniform:1..2s") == Uniform(1, 2_000_000)
        for text in ("exp", "exp:0", "exp:1000001s", "exp:1s:2s", "pareto:0:1s", "pareto:101:1s", "pareto:nan:1s",
                     "pareto:1.5:0", "uniform:0..1s", "uniform:2s..1s", "uniform:1s", "gamma:1s", "Exp:1s", ""):
            assert distribution_of(text) is None, text

    def test_zipf(self) -> None:
        """With the exponent 1 the first three of three keys stand as 6 to 3 to 2."""
        assert zipf_of("zipf:0.9:1000") == Zipf(Decimal("0.9"), 1000)
        for text in ("zipf", "zipf:1", "zipf:11:5", "zipf:1:0", "zipf:1:100001", "zipf:1:2.5", "zipf:-1:5", "uniform"):
            assert zipf_of(text) is None, text
        assert [weight(place, Decimal(1)) for place in (1, 2, 4)] == [10**18, 5 * 10**17, 25 * 10**16]
        keys, draws = Keys(3, Zipf(Decimal(1), 3), Draws(5)), Draws(6)
        drawn = [keys.draw(draws) for _ in range(COUNT)]
        shares = [drawn.count(key) / COUNT for key in keys.popular]
        assert len(set(keys.popular)) == 3
        assert all(abs(share - part / 11) < 0.015 for share, part in zip(shares, (6, 3, 2)))
        assert sorted(Keys(3, Zipf(Decimal(0), 8), Draws(5)).popular) == list(range(8))
