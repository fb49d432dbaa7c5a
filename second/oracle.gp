\\ The oracle's side: document 01's definitions in PARI/GP's own polynomials.
\\ f is built once as a polynomial in x1..x5; sums and rounds come from it by
\\ putting values in. Nothing is taken from the second program.

p = 2147483647;
X = [x1, x2, x3, x4, x5];

\\ x1 is the top bit of the index.
corner(m, i) = vector(m, j, bittest(i, m - j));

weight(m, i) = my(b = corner(m, i)); prod(j = 1, m, X[j]*b[j] + (1 - X[j])*(1 - b[j]));

extension(m, T) = sum(i = 0, 2^m - 1, Mod(T[i + 1], p) * weight(m, i));

f(m, k, T) = prod(t = 0, k - 1, extension(m, T[t*2^m + 1 .. (t + 1)*2^m]));

\\ values for the variables from number `first` on
put(F, first, values) = for (j = 1, #values, F = subst(F, X[first + j - 1], Mod(values[j], p))); F;

number(F) = lift(simplify(F) * Mod(1, p));

truesum(m, k, T) = my(F = f(m, k, T)); [0, number(sum(i = 0, 2^m - 1, put(F, 1, corner(m, i))))];

valueat(m, k, T, r) = [0, number(put(f(m, k, T), 1, r))];

truepolynomial(F, m, k, j, r) =
{
  my(G = put(F, 1, r[1 .. j - 1]), S);
  S = sum(i = 0, 2^(m - j) - 1, put(G, j + 1, corner(m - j, i)));
  vector(k + 1, e, number(polcoef(S, e - 1, X[j])));
}

messages(m, k, T, r) = my(F = f(m, k, T)); if (m == 0, [], concat(vector(m, j, truepolynomial(F, m, k, j, r))));

\\ [1, round] when a round's sum fails, else [0, last value]
rounds(m, k, c, r, M) =
{
  my(s);
  for (j = 1, m,
    s = Polrev(M[(j - 1)*(k + 1) + 1 .. j*(k + 1)]) * Mod(1, p);
    if (subst(s, x, 0) + subst(s, x, 1) != Mod(c, p), return([1, j]));
    c = number(subst(s, x, Mod(r[j], p))));
  [0, c];
}

check(m, k, T, c, r, M) =
{
  my(a = rounds(m, k, c, r, M));
  if (a[1] == 1, return(a));
  if (a[2] == valueat(m, k, T, r)[2], [0], [1, m]);
}

field(code, a, b) =
{
  my(u = Mod(a, p));
  if (code == 1, return([0, lift(u + b)]));
  if (code == 2, return([0, lift(u - b)]));
  if (code == 3, return([0, lift(-u)]));
  if (code == 4, return([0, lift(u * b)]));
  if (code == 5, return([0, lift(u ^ b)]));
  [0, lift(1 / u)];
}

if (!isprime(p), error("p is not prime"));
