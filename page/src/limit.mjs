// The most bytes that the judge takes. One more is refused whatever follows, so no more than that is read.
export const MOST = 16777216;
