// The limits of a page (docs/FORMAT.md, Limits).

export const MAX_PAGE = 32_768;
export const MAX_DEPTH = 48;
export const MAX_NAME = 128;
export const MAX_MEMBERS = 8;
export const MAX_NUMBER = Number.MAX_SAFE_INTEGER;
export const MAX_DIGITS = 999_999_999_999_999n;
export const MAX_PLACES = 15;
