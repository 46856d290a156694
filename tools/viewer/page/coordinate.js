// A number of units as a decimal number, exactly.
export function coordinate(units, digits) {
  if (digits === 0) return String(units);
  const text = String(Math.abs(units)).padStart(digits + 1, "0");
  return `${units < 0 ? "-" : ""}${text.slice(0, -digits)}.${text.slice(-digits)}`;
}
