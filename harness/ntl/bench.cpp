// The same rounds as the program `bench`, over NTL's zz_pX, for comparison of speed and of results.
// Build: g++ -O2 -o /tmp/ntl-bench harness/ntl/bench.cpp -lntl -lgmp -lpthread     Run: time /tmp/ntl-bench 20
#include <NTL/lzz_pX.h>
#include <cstdio>
#include <cstdlib>

using namespace NTL;

static zz_pX D, d;
static long m;

struct Ideal { zz_pX q, p; };
struct Place { Ideal ideal; long offset; };

static void standard(Ideal &a) {
    MakeMonic(a.q);
    rem(a.p, a.p, a.q);
}

static long step(Ideal &a) {
    zz_pX r, p, q;
    rem(r, a.p + d, a.q);
    p = d - r;
    div(q, D - sqr(p), a.q);
    long far = deg(p + d);
    a.q = q;
    a.p = p;
    standard(a);
    return far;
}

// The product in standard form; answers deg S.
static long product(Ideal &c, const Ideal &a, const Ideal &b) {
    zz_pX g, x, z, s, u, y, A, B, C, t;
    XGCD(g, x, z, a.q, b.q);
    XGCD(s, u, y, g, a.p + b.p);
    div(A, a.q, s);
    div(B, b.q, s);
    div(C, D - sqr(a.p), a.q);
    rem(x, (u % B) * (x % B), B);
    t = (x * ((b.p - a.p) % B)) % B + ((y % B) * (C % B)) % B;
    c.p = a.p + A * t;
    c.q = A * B;
    standard(c);
    return deg(s);
}

static Place sum(const Ideal &a, const Ideal &b, long offsets) {
    Place r;
    long gap = offsets + product(r.ideal, a, b);
    while (deg(r.ideal.q) >= m) {
        long len = deg(r.ideal.q);
        gap += len - step(r.ideal);
    }
    while (gap >= m - deg(r.ideal.q)) {
        gap -= m - deg(r.ideal.q);
        step(r.ideal);
    }
    r.offset = gap;
    return r;
}

static Place find(unsigned char byte) {
    Place r;
    r.ideal.q = 1;
    r.offset = 0;
    for (int i = 0; i < 32; i++)
        for (int k = 7; k >= 0; k--)
            r = sum(r.ideal, r.ideal, 2 * r.offset + (byte >> k) % 2);
    return r;
}

static Place multiple(const Place &p, unsigned char byte) {
    Place r;
    bool some = false;
    for (int i = 0; i < 32; i++)
        for (int k = 7; k >= 0; k--) {
            bool one = (byte >> k) % 2;
            if (some) {
                r = sum(r.ideal, r.ideal, 2 * r.offset);
                if (one) r = sum(r.ideal, p.ideal, r.offset + p.offset);
            } else if (one) {
                r = p;
                some = true;
            }
        }
    return r;
}

static void show(const char *name, const Place &p) {
    std::printf("%s: Q has degree %ld and ends in %ld, offset %ld\n", name, deg(p.ideal.q), rep(coeff(p.ideal.q, 0)), p.offset);
}

int main(int argc, char **argv) {
    int rounds = argc > 1 ? std::atoi(argv[1]) : 1;
    zz_p::init(10007);
    SetCoeff(D, 50);
    SetCoeff(D, 1);
    SetCoeff(D, 0);
    m = 25;
    SetCoeff(d, m);
    zz_p half = inv(to_zz_p(2));
    for (long i = m - 1; i >= 0; i--) SetCoeff(d, i, coeff(D - sqr(d), m + i) * half);
    Place found, many;
    for (int round = 0; round < rounds; round++) {
        found = find((unsigned char)(165 ^ round));
        many = multiple(found, (unsigned char)(90 ^ round));
    }
    show("find", found);
    show("multiple", many);
}
