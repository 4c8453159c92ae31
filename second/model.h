/* The ground-motion model of Campbell and Bozorgnia 2008 (source document 003), in double precision. */
#ifndef MODEL_H
#define MODEL_H

#define MEASURES 24
#define MEASURE_PGA 21

enum style { STRIKE_SLIP, REVERSE, NORMAL };

/* What the equations read: the magnitude as a number, the speed in m/s, the dip in degrees, lengths in km. */
struct figures {
    enum style style;
    double m, vs30, dip, ztor, rjb, rrup, z25;
};

/* One measure, or one period: the median with its logarithm, in g, cm/s or cm, and the four sigmas; and whether the median is PGA's,
   since its own is lower. */
struct prediction {
    double ln_median, median, intra, inter, total, arbitrary;
    int raised;
};

/* A prediction as it is reported: the median in 10^-10, all else in millionths. */
struct row {
    long long ln_median, median, intra, inter, total, arbitrary;
};

double rock_pga(const struct figures *f);
struct prediction predict_one(const struct figures *f, int measure);
int has_period(unsigned long long period);
struct prediction predict_period(const struct figures *f, unsigned long long period);
void predict_all(const struct figures *f, struct prediction spectrum[MEASURES]);
struct row reported(const struct prediction *p);

#endif
