      I=A+-B
      END
