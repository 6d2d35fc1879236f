socat TCP-LISTEN:7000,bind=127.0.0.1,reuseaddr,fork EXEC:"./revroute serve --alone"
