/** What stands in the page when it is opened: an example, so that the first answer is seen without a recording. */

export const EXAMPLE = {
  origin: 'https://shop.example',
  headers: `HTTP/2 200
content-security-policy: default-src 'self'; script-src 'self' 'nonce-R4nd0m' https://cdn.example.net; style-src 'self' 'unsafe-inline'; image-src https://img.example.net; frame-ancestors 'none'
content-security-policy-report-only: default-src https:`,
  newer: `content-security-policy: default-src 'self'; script-src 'self' 'nonce-Z8mQ2k' https:; style-src 'self'; img-src 'self' https://img.example.net; frame-ancestors 'none'; object-src 'none'`,
  page: `<!doctype html>
<html lang="en">
<head>
<title>A small shop</title>
<link rel="stylesheet" href="/site.css">
<script src="https://cdn.example.net/shop.js"></script>
<script src="https://stats.example.org/count.js" async></script>
<script nonce="R4nd0m">start();</script>
<script>window.cart = [];</script>
</head>
<body>
<img src="https://img.example.net/logo.png" alt="">
<p style="color: green">In stock</p>
<button onclick="buy(7)">Buy</button>
<iframe src="https://pay.example.net/form"></iframe>
</body>
</html>
`,
};
