// Powers by sums and products alone, in the order that `crates/bench_core/src/power.rt` has them, so
// that both compute the same bits.
#pragma once

static const double ROOT = 1.4142135623730951;
static const double LOGARITHM = 0.6931471805599453;
static const double HALF_LOGARITHM = 0.34657359027997264;
static const int MOST_SCALINGS = 1100;
static const int TERMS = 18;

// The logarithm of a number between the root of a half and that of 2.
static inline double near_one(double x) {
    double ratio = (x - 1.0) / (x + 1.0), square = ratio * ratio;
    double factor = ratio, divisor = 1.0, sum = 0.0;
    for (int term = 0; term < TERMS; term++) {
        sum = sum + factor / divisor;
        factor = factor * square;
        divisor = divisor + 2.0;
    }
    return sum + sum;
}

static inline double logarithm(double x) {
    double rest = x, twos = 0.0;
    for (int step = 0; step < MOST_SCALINGS; step++) {
        if (rest > ROOT) {
            rest = rest * 0.5;
            twos = twos + 1.0;
        } else if (rest * ROOT < 1.0) {
            rest = rest * 2.0;
            twos = twos - 1.0;
        } else {
            break;
        }
    }
    return near_one(rest) + twos * LOGARITHM;
}

// The exponential of a small number.
static inline double near_zero(double x) {
    double term = 1.0, divisor = 1.0, sum = 1.0;
    for (int step = 0; step < TERMS; step++) {
        term = term * x / divisor;
        sum = sum + term;
        divisor = divisor + 1.0;
    }
    return sum;
}

static inline double exponential(double x) {
    double rest = x, scale = 1.0;
    for (int step = 0; step < MOST_SCALINGS; step++) {
        if (rest > HALF_LOGARITHM) {
            rest = rest - LOGARITHM;
            scale = scale * 2.0;
        } else if (rest < -HALF_LOGARITHM) {
            rest = rest + LOGARITHM;
            scale = scale * 0.5;
        } else {
            break;
        }
    }
    return near_zero(rest) * scale;
}

// The power of a base above 0.
static inline double power(double base, double exponent) {
    return exponential(exponent * logarithm(base));
}
