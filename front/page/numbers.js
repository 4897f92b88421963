// Numbers as people read and type them, exactly.

// A whole number of steps as people write it, exactly: 123456 in steps of 0.01 is 1,234.56.
function inUnits(steps, places) {
  const digits = String(steps < 0n ? -steps : steps).padStart(places + 1, "0");
  const whole = digits.slice(0, digits.length - places).replace(/\B(?=(\d{3})+$)/g, ",");
  return (steps < 0n ? "-" : "") + whole + (places ? "." + digits.slice(-places) : "");
}

// What was typed, in steps: 1.5 in steps of 0.01 is 150. What isn't such a number stays, for the program to refuse.
function inSteps(typed, places) {
  const match = /^(-?)(\d+)(?:\.(\d+))?$/.exec(typed);
  if (!match || (match[3] || "").length > places) return typed;
  return String(BigInt(match[1] + match[2] + (match[3] || "").padEnd(places, "0")));
}

const showValue = (steps, name) => inUnits(BigInt(steps), placesOf(name)) + unitOf(name);
const showCount = number => inUnits(BigInt(number), 0);

// A quotient to two places more than the column has, and whether that is all of it.
function showQuotient(numerator, denominator, name) {
  const places = placesOf(name) + 2, size = numerator < 0n ? -numerator : numerator;
  const scaled = size * 100n, rounded = (2n * scaled + denominator) / (2n * denominator);
  const text = inUnits(numerator < 0n ? -rounded : rounded, places).replace(/0{1,2}$/, "").replace(/\.$/, "");
  const exact = scaled % denominator === 0n;
  return {text: (exact ? "" : "≈ ") + text + unitOf(name), exact};
}
