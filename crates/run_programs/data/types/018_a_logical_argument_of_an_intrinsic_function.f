      I=MOD(.TRUE.,2)
      END
