      IBAD(N)=1/0+N
      I=IBAD(0**0)
      END
