      A=B*-C
      END
