export default {
  async fetch(request) {
    return new Response("back\n");
  }
};
