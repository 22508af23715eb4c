// The hello reply by nginx's njs module.
function hello(r) {
  r.headersOut["content-type"] = "text/plain;charset=UTF-8";
  r.return(200, "Hello World\n");
}

export default { hello };
