import { jsx as _jsx, jsxTemplate as _jsxTemplate, jsxAttr as _jsxAttr, jsxEscape as _jsxEscape } from "react/jsx-runtime";
const $$_tpl_1 = ["<table class=\"blocks\"><tr data-seats=\"27\"><th>Stalls</th><td>27 seats</td></tr><tr data-seats=\"236\"><th>Balcony</th><td>236 seats</td></tr><tr ", "><th>Gallery</th><td>", " seats</td></tr><tr><td>", "</td></tr></table>"];
export function Blocks({ gallery }) {
  return _jsxTemplate($$_tpl_1, _jsxAttr("data-seats", 2 * gallery), _jsxEscape(2 * gallery), _jsx(Left, { of: 263, change: -9 }));
}
