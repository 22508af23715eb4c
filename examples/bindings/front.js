export default {
  async fetch(request) {
    return new Response("front\n");
  }
};
