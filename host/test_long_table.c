/* What Table 2 answers: known values, the Earth of its frames, and the further
 * terms in the mean anomaly of Jupiter to Pluto. */
#include <string.h>

#include "test.h"

/* The known values are those of reference/exact.py.  Most of their minutes are Table
 * 2's first, noon on 8 August 1588 (JD 2301285.0), 0, and Table 2's last.
 *
 * Minute, body, frame, and the place in counts. */
static const int64_t known_places[][6] = {
    {-2629254960, 1, 1, 2440836, -3353526, -504227},
    {-2629254960, 2, 1, -1456257, -7128062, 88157},
    {-2629254960, 3, 1, -8276523, 5438435, 74604},
    {-2629254960, 4, 1, 5806613, 14588630, 54595},
    {-2629254960, 5, 1, -29033758, -44643456, 813392},
    {-2629254960, 6, 1, -92774445, 24763332, 2388955},
    {-2629254960, 7, 1, -121542435, 138774095, 2409517},
    {-2629254960, 8, 1, -301885804, -18552720, 7261247},
    {-2629254960, 9, 1, -201268078, 333993068, 21642669},
    {-216374400, 1, 1, -2930724, -3465389, -9145},
    {-216374400, 2, 1, 2024534, -6988514, -205097},
    {-216374400, 3, 1, 7935866, -6293042, -5425},
    {-216374400, 4, 1, -3586524, 15626491, 415673},
    {-216374400, 5, 1, -47894982, 24612876, 985445},
    {-216374400, 6, 1, 46770614, 77669521, -3239152},
    {-216374400, 7, 1, 198196656, -32664069, -2716202},
    {-216374400, 8, 1, -181173458, 239396826, -758719},
    {-216374400, 9, 1, 434937867, 131698579, -139900439},
    {0, 1, 1, -1300814, -4472937, -245938},
    {0, 2, 1, -7182953, -326819, 410508},
    {0, 3, 1, -1772104, 9671834, -90},
    {0, 4, 1, 13906596, -139737, -345901},
    {0, 5, 1, 39955188, 29489091, -1010612},
    {0, 6, 1, 64319415, 65228418, -3706009},
    {0, 7, 1, 144267433, -137056637, -2381545},
    {0, 8, 1, 168063548, -250030400, 1276144},
    {0, 9, 1, -98634808, -279750061, 58468164},
    {525949200, 1, 1, -2428187, -3892921, -105976},
    {525949200, 2, 1, 7090895, -1544768, -430497},
    {525949200, 3, 1, 657089, 9823854, -23023},
    {525949200, 4, 1, -11238241, -11042497, 21617},
    {525949200, 5, 1, -45053057, 29141273, 846116},
    {525949200, 6, 1, 84431430, 40407861, -4138893},
    {525949200, 7, 1, 47536111, -188768022, -1266950},
    {525949200, 8, 1, 254049255, -159833023, -2575250},
    {525949200, 9, 1, -15235936, -310297159, 37488219},
    {-2629254960, 9, 5, 352467714, -167667217, -13517860},
    {-2629254960, 3, 5, 9841594, 0, -1107212},
    {-216374400, 4, 2, -3586524, 14171675, 6597231},
    {-216374400, 4, 3, 14264116, 7314119, -511451},
    {-216374400, 4, 4, -12519540, 10015565, 415673},
    {-216374400, 4, 5, -12543785, 9980727, -511451},
    {-216374400, 6, 5, -11698774, 89964805, 96699},
    {525949200, 7, 4, -185174723, -60028130, -1266950},
    {525949200, 8, 5, -141718826, -262466991, 33482651},
    {525949200, 9, 3, -304510611, -56337184, 44957335},
    /* A sum of step 5 ends at exactly half a unit, which goes away from zero. */
    {-2546804849, 5, 1, 35652198, -36008608, -839723},  /* x is 35652197 1/2 */
    {-1841523596, 5, 1, 43962268, -24305051, -1018079}, /* z is -1018078 1/2 */
    {-2149715949, 3, 1, 7072489, 6885730, 59815},       /* x is 7072488 1/2 */
    {-1563976271, 3, 1, 995997, -10128982, -70401},     /* z is -70400 1/2 */
};

/* Minute, body, and a, e, I, L, longitude of perihelion, node. */
static const int64_t known_elements[][8] = {
    {-2629254960, 1, 38709843, 20457533, 730061216, -747183254140643, 6948936427, 5444544346},
    {-2629254960, 3, 100000167, 1856175, 66790697, -179949513319733, 8703572371, 694682421},
    {-2629254960, 9, 3926203145, 24584500, 1714079215, -701855163069, 22458133908, 11070658642},
    {-216374400, 4, 152370843, 9298872, 188163442, -7874574209998, -2577790011, 5081789054},
    {-216374400, 5, 520259801, 4779432, 131188965, -1245093920170, 1352625669, 9975700744},
    {-216374400, 8, 3006926229, 892073, 176913368, -59451971934, 4664003945, 13181130115},
    {525949200, 1, 38709843, 20584890, 694657973, 149494830778849, 7905168751, 4711822507},
    {525949200, 6, 954119233, 5230391, 253943699, 1227097423806, 9827919717, 11113853818},
    {525949200, 7, 1918593402, 4670240, 75496613, 459906603907, 17336072388, 7453646026},
    {525949200, 9, 3953183452, 24945396, 1714109269, 169073982923, 22400014526, 11022068342},
};

/* Minute, and M of Mars to Pluto. */
static const int64_t known_means[][7] = {
    {-2629254960, 105335749, -124600143, 91147265, -33424039, 136686653, -74687986},
    {-216374400, 120035800, 135611100, -28410401, 178450662, 79468832, 137357780},
    {0, 19349316, 20120479, -42919993, 140791403, -101775232, 14868324},
    {525949200, -106109776, 126554984, -67054007, 105710975, -77936041, 25477011},
};

/* Minute, two frames, a vector in the first, and it in the second. */
static const int64_t known_turns[][9] = {
    {-2629254960, 1, 5, 500000000, -500000000, 500000000, -628565697, 164125585, 572684381},
    {-216374400, 1, 4, 10000000, 20000000, 30000000, -4591359, 21884229, 30000000},
    {-216374400, 5, 4, -123456789, 234567890, -345678901, -162441033, 217121779, -340923049},
    {-216374400, 4, 2, 1, 2, 3, 2, 0, 3},
    {0, 3, 5, 500000000, 500000000, 500000000, 662105770, 248223806, 499999660},
    {525949200, 2, 5, -500000000, 7, -500000000, -243635303, 424830110, -510059593},
    {525949200, 5, 1, 499999999, -1, 0, 34916863, 498651135, 11298851},
    {525949200, 2, 3, 314159265, 271828182, -141421356, 264486775, -284961318, -203543940},
};

static void places_as_known(void)
{
    for (size_t i = 0; i < sizeof known_places / sizeof *known_places; i++) {
        const int64_t *k = known_places[i], wanted[] = {0, k[3], k[4], k[5]};
        lindenbrood_vector_answer v =
            lindenbrood_counts_by_table(lindenbrood_minutes(k[0]), 2, k[1], k[2]);

        CHECK(memcmp(&v, wanted, sizeof v) == 0, "minute %" PRId64 ", body %" PRId64
              ", frame %" PRId64, k[0], k[1], k[2]);
    }
}

static void elements_as_known(void)
{
    for (size_t i = 0; i < sizeof known_elements / sizeof *known_elements; i++) {
        const int64_t *k = known_elements[i];
        lindenbrood_elements_answer e =
            lindenbrood_elements_by_table(lindenbrood_minutes(k[0]), 2, k[1]);

        CHECK(e.status == 0 && e.a == k[2] && e.e == k[3] && e.inclination == k[4]
                  && e.mean_longitude == k[5] && e.perihelion == k[6] && e.node == k[7],
              "minute %" PRId64 ", body %" PRId64, k[0], k[1]);
    }
}

static void means_as_known(void)
{
    for (size_t i = 0; i < sizeof known_means / sizeof *known_means; i++)
        for (int64_t body = 4; body <= 9; body++) {
            const int64_t *k = known_means[i];
            lindenbrood_angle_answer m =
                lindenbrood_mean_anomaly_by_table(lindenbrood_minutes(k[0]), 2, body);

            CHECK(m.status == 0 && m.angle == k[body - 3],
                  "minute %" PRId64 ", body %" PRId64, k[0], body);
        }
}

static void turns_as_known(void)
{
    for (size_t i = 0; i < sizeof known_turns / sizeof *known_turns; i++) {
        const int64_t *k = known_turns[i], wanted[] = {0, k[6], k[7], k[8]};
        lindenbrood_vector_answer v = lindenbrood_turn_by_table(
            lindenbrood_minutes(k[0]), 2, k[1], k[2], k[3], k[4], k[5]);

        CHECK(memcmp(&v, wanted, sizeof v) == 0, "minute %" PRId64 ", %" PRId64 " to %" PRId64,
              k[0], k[1], k[2]);
    }
}

/* The place in a frame is the place in HAE turned by the same table, so that both
 * have the same Earth; and in HEE that Earth lies on X. */
static void one_earth(void)
{
    for (int i = 0; i < 5000; i++) {
        lindenbrood_date date = lindenbrood_minutes(chance_between(-2629254960, 525949200));
        int64_t body = chance_between(1, 9), frame = chance_between(1, 5);
        lindenbrood_vector_answer hae = lindenbrood_counts_by_table(date, 2, body, 1);
        lindenbrood_vector_answer there = lindenbrood_counts_by_table(date, 2, body, frame);
        lindenbrood_vector_answer turned =
            lindenbrood_turn_by_table(date, 2, 1, frame, hae.x, hae.y, hae.z);
        lindenbrood_vector_answer earth = lindenbrood_counts_by_table(date, 2, 3, 4);

        CHECK(hae.status == 0 && memcmp(&there, &turned, sizeof there) == 0,
              "minute %" PRId64 ", body %" PRId64 ", frame %" PRId64, date.minutes, body, frame);
        CHECK(earth.status == 0 && earth.x > 9000000 && earth.y == 0,
              "the Earth, minute %" PRId64, date.minutes);
    }
}

/* What M has beyond L minus the longitude of perihelion, each of the two over
 * 100 with floor, brought to one turn. */
static int64_t further_terms_of(int64_t minute, int64_t table, int64_t body)
{
    lindenbrood_date date = lindenbrood_minutes(minute);
    lindenbrood_elements_answer e = lindenbrood_elements_by_table(date, table, body);
    lindenbrood_angle_answer m = lindenbrood_mean_anomaly_by_table(date, table, body);
    int64_t turn = 36000000000;
    int64_t counts = (e.mean_longitude - e.perihelion) % turn;
    int64_t plain = (counts < 0 ? counts + turn : counts) / 100;
    int64_t apart = (m.angle - plain) % 360000000;

    CHECK(e.status == 0 && m.status == 0, "minute %" PRId64 ", table %" PRId64, minute, table);
    return apart < -180000000 ? apart + 360000000 : apart;
}

/* None by Table 1, and by Table 2 none for Mercury to Mars.  The others have some,
 * which the numbers of Table 2b keep below 2.5 degrees but for Pluto; there they
 * fall with the square of the time, to -31.6 degrees. */
static void further_terms(void)
{
    for (int64_t minute = -105189840; minute <= 26298000; minute += 1234567)
        for (int64_t body = 1; body <= 9; body++)
            CHECK(further_terms_of(minute, 1, body) == 0, "table 1, minute %" PRId64
                  ", body %" PRId64, minute, body);
    for (int64_t minute = -2629254960; minute <= 525949200; minute += 12345678)
        for (int64_t body = 1; body <= 9; body++) {
            int64_t terms = further_terms_of(minute, 2, body);
            int64_t least = body <= 4 ? 0 : body <= 8 ? -2500000 : -31600000;
            int64_t most = body <= 4 || body == 9 ? 0 : 2500000;

            CHECK(least <= terms && terms <= most, "table 2, minute %" PRId64 ", body %" PRId64
                  ": %" PRId64, minute, body, terms);
        }
    for (int64_t body = 5; body <= 9; body++)
        CHECK(further_terms_of(-2629254960, 2, body) != 0, "body %" PRId64, body);
}

void test_long_table(void)
{
    places_as_known();
    elements_as_known();
    means_as_known();
    turns_as_known();
    one_earth();
    further_terms();
}
