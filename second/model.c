/* The equations of source document 003 by their numbers, term by term, and its Tables 2 and 3 as printed. */
#include "model.h"

#include <math.h>

#define C 1.88
#define N 1.18
#define ROCK 1100.0
#define SIGMA_AF 0.3

struct coefficients {
    double c0, c1, c2, c3, c4, c5, c6, c7, c8, c9, c10, c11, c12, k1, k2, k3;
};

struct deviations {
    double sigma, tau, component, rho;
};

/* The periods of the first measures, in s. */
static const double PERIOD[] = {
    0.010, 0.020, 0.030, 0.050, 0.075, 0.10, 0.15, 0.20, 0.25, 0.30, 0.40, 0.50, 0.75, 1.0, 1.5, 2.0, 3.0, 4.0, 5.0, 7.5, 10.0,
};
#define PERIODS (int)(sizeof PERIOD / sizeof PERIOD[0])

/* Table 2: those periods, PGA, PGV, PGD. */
static const struct coefficients TABLE2[MEASURES] = {
    {-1.715, 0.500, -0.530, -0.262, -2.118, 0.170, 5.60, 0.280, -0.120, 0.490, 1.058, 0.040, 0.610, 865, -1.186, 1.839},
    {-1.680, 0.500, -0.530, -0.262, -2.123, 0.170, 5.60, 0.280, -0.120, 0.490, 1.102, 0.040, 0.610, 865, -1.219, 1.840},
    {-1.552, 0.500, -0.530, -0.262, -2.145, 0.170, 5.60, 0.280, -0.120, 0.490, 1.174, 0.040, 0.610, 908, -1.273, 1.841},
    {-1.209, 0.500, -0.530, -0.267, -2.199, 0.170, 5.74, 0.280, -0.120, 0.490, 1.272, 0.040, 0.610, 1054, -1.346, 1.843},
    {-0.657, 0.500, -0.530, -0.302, -2.277, 0.170, 7.09, 0.280, -0.120, 0.490, 1.438, 0.040, 0.610, 1086, -1.471, 1.845},
    {-0.314, 0.500, -0.530, -0.324, -2.318, 0.170, 8.05, 0.280, -0.099, 0.490, 1.604, 0.040, 0.610, 1032, -1.624, 1.847},
    {-0.133, 0.500, -0.530, -0.339, -2.309, 0.170, 8.79, 0.280, -0.048, 0.490, 1.928, 0.040, 0.610, 878, -1.931, 1.852},
    {-0.486, 0.500, -0.446, -0.398, -2.220, 0.170, 7.60, 0.280, -0.012, 0.490, 2.194, 0.040, 0.610, 748, -2.188, 1.856},
    {-0.890, 0.500, -0.362, -0.458, -2.146, 0.170, 6.58, 0.280, 0.000, 0.490, 2.351, 0.040, 0.700, 654, -2.381, 1.861},
    {-1.171, 0.500, -0.294, -0.511, -2.095, 0.170, 6.04, 0.280, 0.000, 0.490, 2.460, 0.040, 0.750, 587, -2.518, 1.865},
    {-1.466, 0.500, -0.186, -0.592, -2.066, 0.170, 5.30, 0.280, 0.000, 0.490, 2.587, 0.040, 0.850, 503, -2.657, 1.874},
    {-2.569, 0.656, -0.304, -0.536, -2.041, 0.170, 4.73, 0.280, 0.000, 0.490, 2.544, 0.040, 0.883, 457, -2.669, 1.883},
    {-4.844, 0.972, -0.578, -0.406, -2.000, 0.170, 4.00, 0.280, 0.000, 0.490, 2.133, 0.077, 1.000, 410, -2.401, 1.906},
    {-6.406, 1.196, -0.772, -0.314, -2.000, 0.170, 4.00, 0.255, 0.000, 0.490, 1.571, 0.150, 1.000, 400, -1.955, 1.929},
    {-8.692, 1.513, -1.046, -0.185, -2.000, 0.170, 4.00, 0.161, 0.000, 0.490, 0.406, 0.253, 1.000, 400, -1.025, 1.974},
    {-9.701, 1.600, -0.978, -0.236, -2.000, 0.170, 4.00, 0.094, 0.000, 0.371, -0.456, 0.300, 1.000, 400, -0.299, 2.019},
    {-10.556, 1.600, -0.638, -0.491, -2.000, 0.170, 4.00, 0.000, 0.000, 0.154, -0.820, 0.300, 1.000, 400, 0.000, 2.110},
    {-11.212, 1.600, -0.316, -0.770, -2.000, 0.170, 4.00, 0.000, 0.000, 0.000, -0.820, 0.300, 1.000, 400, 0.000, 2.200},
    {-11.684, 1.600, -0.070, -0.986, -2.000, 0.170, 4.00, 0.000, 0.000, 0.000, -0.820, 0.300, 1.000, 400, 0.000, 2.291},
    {-12.505, 1.600, -0.070, -0.656, -2.000, 0.170, 4.00, 0.000, 0.000, 0.000, -0.820, 0.300, 1.000, 400, 0.000, 2.517},
    {-13.087, 1.600, -0.070, -0.422, -2.000, 0.170, 4.00, 0.000, 0.000, 0.000, -0.820, 0.300, 1.000, 400, 0.000, 2.744},
    {-1.715, 0.500, -0.530, -0.262, -2.118, 0.170, 5.60, 0.280, -0.120, 0.490, 1.058, 0.040, 0.610, 865, -1.186, 1.839},
    {0.954, 0.696, -0.309, -0.019, -2.016, 0.170, 4.00, 0.245, 0.000, 0.358, 1.694, 0.092, 1.000, 400, -1.955, 1.929},
    {-5.270, 1.600, -0.070, 0.000, -2.000, 0.170, 4.00, 0.000, 0.000, 0.000, -0.820, 0.300, 1.000, 400, 0.000, 2.744},
};

/* Table 3, the same rows, without the totals that it prints for linear sites: those are compared in vectors.py. */
static const struct deviations TABLE3[MEASURES] = {
    {0.478, 0.219, 0.166, 1.000}, {0.480, 0.219, 0.166, 0.999}, {0.489, 0.235, 0.165, 0.989},
    {0.510, 0.258, 0.162, 0.963}, {0.520, 0.292, 0.158, 0.922}, {0.531, 0.286, 0.170, 0.898},
    {0.532, 0.280, 0.180, 0.890}, {0.534, 0.249, 0.186, 0.871}, {0.534, 0.240, 0.191, 0.852},
    {0.544, 0.215, 0.198, 0.831}, {0.541, 0.217, 0.206, 0.785}, {0.550, 0.214, 0.208, 0.735},
    {0.568, 0.227, 0.221, 0.628}, {0.568, 0.255, 0.225, 0.534}, {0.564, 0.296, 0.222, 0.411},
    {0.571, 0.296, 0.226, 0.331}, {0.558, 0.326, 0.229, 0.289}, {0.576, 0.297, 0.237, 0.261},
    {0.601, 0.359, 0.237, 0.200}, {0.628, 0.428, 0.271, 0.174}, {0.667, 0.485, 0.290, 0.174},
    {0.478, 0.219, 0.166, 1.000}, {0.484, 0.203, 0.190, 0.691}, {0.667, 0.485, 0.290, 0.174},
};

/* The magnitude term, equation 2. */
static double f_mag(const struct coefficients *t, double m) {
    double sum = t->c0 + t->c1 * m;
    if (m > 5.5)
        sum += t->c2 * (m - 5.5);
    if (m > 6.5)
        sum += t->c3 * (m - 6.5);
    return sum;
}

/* The distance term, equation 3. */
static double f_dis(const struct coefficients *t, double m, double rrup) {
    return (t->c4 + t->c5 * m) * log(sqrt(rrup * rrup + t->c6 * t->c6));
}

/* The style-of-faulting term, equations 4 and 5. */
static double f_flt(const struct coefficients *t, enum style style, double ztor) {
    if (style == REVERSE)
        return t->c7 * (ztor < 1 ? ztor : 1);
    return style == NORMAL ? t->c8 : 0;
}

/* The hanging-wall factor of distance, equation 7. */
static double f_hng_r(double ztor, double rjb, double rrup) {
    if (rjb == 0)
        return 1;
    double far = ztor < 1 ? fmax(rrup, sqrt(rjb * rjb + 1)) : rrup;
    return (far - rjb) / far;
}

/* The hanging-wall factor of magnitude, equation 8. */
static double f_hng_m(double m) {
    if (m <= 6)
        return 0;
    return m < 6.5 ? 2 * (m - 6) : 1;
}

/* The hanging-wall term, equation 6 with the factors of 9 and 10. */
static double f_hng(const struct coefficients *t, const struct figures *f) {
    double depth = f->ztor >= 20 ? 0 : (20 - f->ztor) / 20;
    double dip = f->dip <= 70 ? 1 : (90 - f->dip) / 20;
    return t->c9 * f_hng_r(f->ztor, f->rjb, f->rrup) * f_hng_m(f->m) * depth * dip;
}

/* The site term, equation 11; a is the PGA on rock, which the linear branches do not read. */
static double f_site(const struct coefficients *t, double vs30, double a) {
    if (vs30 < t->k1)
        return t->c10 * log(vs30 / t->k1) + t->k2 * (log(a + C * pow(vs30 / t->k1, N)) - log(a + C));
    return (t->c10 + t->k2 * N) * log((vs30 < ROCK ? vs30 : ROCK) / t->k1);
}

/* The basin term, equation 12. */
static double f_sed(const struct coefficients *t, double z25) {
    if (z25 < 1)
        return t->c11 * (z25 - 1);
    if (z25 <= 3)
        return 0;
    return t->c12 * t->k3 * exp(-0.75) * (1 - exp(-0.25 * (z25 - 3)));
}

/* The logarithm of the median, equation 1, at a speed that need not be the request's. */
static double ln_median(const struct coefficients *t, const struct figures *f, double vs30, double a) {
    return f_mag(t, f->m) + f_dis(t, f->m, f->rrup) + f_flt(t, f->style, f->ztor) + f_hng(t, f)
        + f_site(t, vs30, a) + f_sed(t, f->z25);
}

/* A1100, the median PGA at 1100 m/s; PGA's k1 lies below that, so the site term reads no A. */
double rock_pga(const struct figures *f) {
    return exp(ln_median(&TABLE2[MEASURE_PGA], f, ROCK, 0));
}

/* How the site term follows ln A1100, equation 17. */
static double slope(const struct coefficients *t, double vs30, double a) {
    if (vs30 >= t->k1)
        return 0;
    return t->k2 * a * (1 / (a + C * pow(vs30 / t->k1, N)) - 1 / (a + C));
}

/* The intra-event sigma squared, equation 15. */
static double intra_squared(const struct deviations *d, double alpha) {
    double pga = TABLE3[MEASURE_PGA].sigma;
    double below = sqrt(d->sigma * d->sigma - SIGMA_AF * SIGMA_AF);
    double rock = sqrt(pga * pga - SIGMA_AF * SIGMA_AF);
    return below * below + SIGMA_AF * SIGMA_AF + alpha * alpha * rock * rock + 2 * alpha * d->rho * below * rock;
}

/* PGA's logarithm at the site itself. */
static double ln_pga(const struct figures *f, double a) {
    return ln_median(&TABLE2[MEASURE_PGA], f, f->vs30, a);
}

/* Whether a measure is a period up to 0.25 s, which 003, below equation 12, does not let fall below PGA. */
static int is_short(int measure) {
    return measure < PERIODS && PERIOD[measure] <= 0.25;
}

/* One measure once A1100 is known, its logarithm not below the least: equations 1, 14 to 16 and 18. */
static struct prediction predict(const struct figures *f, int measure, double a, double least) {
    const struct coefficients *t = &TABLE2[measure];
    const struct deviations *d = &TABLE3[measure];
    struct prediction p;
    double intra2 = intra_squared(d, slope(t, f->vs30, a));
    double total2 = intra2 + d->tau * d->tau;
    double own = ln_median(t, f, f->vs30, a);
    p.raised = own < least;
    p.ln_median = fmax(own, least);
    p.median = exp(p.ln_median);
    p.intra = sqrt(intra2);
    p.inter = d->tau;
    p.total = sqrt(total2);
    p.arbitrary = sqrt(total2 + d->component * d->component);
    return p;
}

/* One measure, from 0 to 23. */
struct prediction predict_one(const struct figures *f, int measure) {
    double a = rock_pga(f);
    return predict(f, measure, a, is_short(measure) ? ln_pga(f, a) : -INFINITY);
}

/* A tabulated period in thousandths of a second. */
static unsigned long long thousandths(int measure) {
    return (unsigned long long)llround(PERIOD[measure] * 1000);
}

/* Whether a period, in thousandths of a second, lies in the range of the tabulated ones. */
int has_period(unsigned long long period) {
    return thousandths(0) <= period && period <= thousandths(PERIODS - 1);
}

/* The measure that a period is tabulated as; if it is not, their number. */
static int row_at(unsigned long long period) {
    int k = 0;
    while (k < PERIODS && thousandths(k) != period)
        k++;
    return k;
}

/* The lower measure of the two that a period lies between. */
static int row_below(unsigned long long period) {
    int k = 0;
    while (k + 2 < PERIODS && thousandths(k + 1) < period)
        k++;
    return k;
}

/* How far a period lies from one measure's to the next one's, over the logarithm of the period: 0 to 1. */
static double share_of(unsigned long long period, int below) {
    double low = (double)thousandths(below), high = (double)thousandths(below + 1);
    return log((double)period / low) / log(high / low);
}

/* A point of the straight line from one figure to another. */
static double on_line(double low, double high, double share) {
    return low + share * (high - low);
}

/* A row between two others: the logarithm of the median and each sigma on a line of its own. */
static struct prediction between(const struct prediction *low, const struct prediction *high, double share) {
    struct prediction row;
    row.raised = low->raised && high->raised;
    row.ln_median = on_line(low->ln_median, high->ln_median, share);
    row.median = exp(row.ln_median);
    row.intra = on_line(low->intra, high->intra, share);
    row.inter = on_line(low->inter, high->inter, share);
    row.total = on_line(low->total, high->total, share);
    row.arbitrary = on_line(low->arbitrary, high->arbitrary, share);
    return row;
}

/* One period from 10 to 10000 thousandths of a second: the row of the table, or the one between its neighbours. */
struct prediction predict_period(const struct figures *f, unsigned long long period) {
    int own = row_at(period), below = row_below(period);
    if (own < PERIODS)
        return predict_one(f, own);
    struct prediction low = predict_one(f, below), high = predict_one(f, below + 1);
    return between(&low, &high, share_of(period, below));
}

/* All 24 measures, A1100 and PGA worked out once. */
void predict_all(const struct figures *f, struct prediction spectrum[MEASURES]) {
    double a = rock_pga(f), pga = ln_pga(f, a);
    for (int measure = 0; measure < MEASURES; measure++)
        spectrum[measure] = predict(f, measure, a, is_short(measure) ? pga : -INFINITY);
}

/* The whole numbers that are reported: each to the nearest, the median at least 1. */
struct row reported(const struct prediction *p) {
    struct row r;
    r.ln_median = llround(p->ln_median * 1e6);
    r.median = llround(p->median * 1e10);
    if (r.median < 1)
        r.median = 1;
    r.intra = llround(p->intra * 1e6);
    r.inter = llround(p->inter * 1e6);
    r.total = llround(p->total * 1e6);
    r.arbitrary = llround(p->arbitrary * 1e6);
    return r;
}
